"""The kinds of cases that bench/compare.py makes at random. Each makes one case, or the source of a run, from a source of chance."""

import functools
import random
import re
from dataclasses import dataclass

import image_model
import model

FILE = "source.factor"


@dataclass
class Case:
    """The words of a command line, the files that it may find, their bytes by their names, and the bytes of its input."""

    words: list
    files: dict
    given: bytes = b""


def run_of(*sources):
    """The case of a run of sources, each in a file of its own."""
    files = dict(zip([FILE, "b.factor", "c", "\u00e9 d"], sources))
    return Case(["run", *files], files)


def is_built(*names):
    """Whether all of these are built, by the names of model.PIECES."""
    return model.BUILT.issuperset(names)


# What programs are made of

HEAD = "USING: kernel math io prettyprint sequences arrays math.parser ;"

NUMBERS = [0, 1, 2, 3, -1, 5, 7, 10**9, 2**64, model.GREATEST_INTEGER, model.LEAST_INTEGER]

STRINGS = ["", "a", "b", "a b", "\n", 'a"\\', "\t\r", "\u00e9", "\u20ac!", "t", "1", "[ ... ]", "\0"]


def operations():
    """What computes or writes, as far as it is built, and `.` twice, so that more of it is seen."""
    words = model.ARITHMETIC + model.LOGIC + model.EQUALITY * 2 + model.TEXT + [model.DOT] * 3
    words += model.SEQUENCES + model.ARRAYS + model.NUMBERS_AND_TEXTS
    return [word for word in words if is_built(word.name)]


# Those that apply callables and those that make them, the former twice as often.
CALLABLE_WORDS = [model.CALL, model.DIP, model.IF, model.CURRY, model.COMPOSE, model.IF, model.DIP, model.CALL]

EXISTING_VOCABULARIES = """
    kernel math prettyprint syntax accessors scratchpad locals fry io strings words sequences sequences.private arrays math.parser
    combinators combinators.private kernel.private kernel.private.private math.private
    """.split()

OTHER_VOCABULARIES = """
    nowhere .private private maths Kernel scratchpad.private tools.test fry.privat x.private listener lists.private prelude
    top-level strings.private a.b parser
    """.split()

VOCABULARIES = EXISTING_VOCABULARIES + OTHER_VOCABULARIES

# Tokens that look like integers, those that are none, and those at the limits.
ODD_INTEGERS = """
    - +5 1,000 0x10 -- 0X10 0xG -0x1f 0b12 0b10 0o8 0o7 1, 1,,0 ,1 -1,0 00 -0 -00 007 1.5 1/2 1e5 0x 0b 0o -0x -0b1
    170141183460469231731687303715884105727 170141183460469231731687303715884105728
    -170141183460469231731687303715884105728 -170141183460469231731687303715884105729
    0000000000000000000000000000000000000000000000000000001
    -1- --1 -+1 1- 0x1,0 1_000 -0,0 0,1 10,00,0 1,0, -,1 0b1,0 0XFF -0o17 0B1 0O7 x,1
    """.split() + ["9" * 200]

# Tokens that are names, or only look so.
ODD_NAMES = """
    x"y " "a" ! !x #x !! | < > \\x F T F t1 .. ..a a: foo: a:b * ** __ @@ call) execute boa new = eq? print write 2dip keep bi
    each >>x x>> syntax cond (no-cond) integer object inline: D: ' ` ~ $ % ^ &
    """.split()

# Bytes of which tokens seldom are, alone and in tokens, and white space. Each character is one byte of the file. Some are
# characters of UTF-8, and those of the third line aren't.
ODD_BYTES = (
    "\x00 \x01 \x1f \x7f \xc3\xa9 a\x00b \x1c \xe2\x80\xa8 \xc2\xa0 \xc2\x85 \xef\xbb\xbf".split(" ")
    + "\xf0\x9f\x98\x80 \xc2\xa01 1\xe2\x82\xac".split(" ")
    + "\x80 \xff \xc3 \xe2\x80 \xc0\x80 \xed\xa0\x80 \xf4\x90\x80\x80 \xc3\xa9\xc3".split(" ")
    + ["\t", "\x0b", "\x0c", "\r", "\n", " "]
)

ODD_TOKENS = ODD_INTEGERS + ODD_NAMES + ODD_BYTES + sorted(model.RESERVED)


def apart(text):
    """The texts in a text that stand two spaces apart, or on lines of their own."""
    return re.split(r"\s{2,}", text.strip())


def written(items):
    """Items as they are written in a source."""
    texts = []
    for item in items:
        if isinstance(item, model.Named):
            texts.append(item.name)
        elif isinstance(item.value, model.Quotation):
            texts.append(f"[ {written(item.value.items)} ]")
        elif isinstance(item.value, model.LiteralArray):
            texts.append(f"{{ {written(item.value.elements)} }}")
        else:
            texts.append(model.printed(item.value).encode().decode("latin-1"))
    return " ".join(texts)


def effect(inputs, outputs):
    """An effect with so many names on both sides; outputs are None for a word that never returns."""
    return written_effect(model.plain_effect(inputs, outputs))


def written_effect(said):
    """An effect as it is written."""
    names = ["a" if quotation is None else f"q: {written_effect(quotation)}" for quotation in said.inputs]
    left = " ".join([said.row_in] * (said.row_in is not None) + names)
    names = ["*"] if said.outputs is None else ["x"] * said.outputs
    right = " ".join([said.row_out] * (said.row_out is not None) + names)
    return f"( {left} -- {right} )"


def source_of(*texts):
    """The source that uses the vocabularies with words and has these texts."""
    return " ".join([HEAD, *texts]).encode("latin-1")


def happens(chance, share):
    """Whether something happens that is to happen in this share of all cases."""
    return chance.random() < share


def named(word):
    """An item that names a word."""
    return model.Named(word.name, 0, word)


# The names of inputs of the prelude's words that are quotations.
QUOTATION_NAMES = {"quot", "p", "q", "r", "true", "false"}


@functools.cache
def words_of_prelude():
    """The words of the prelude that a program finds which uses kernel and math, and those of their inputs that are to be quotations, with
    the effect of each that has one."""
    if not is_built("prelude"):
        return [], {}
    names = model.names_of([])
    found = [word for word in names.words if not word.vocabulary.endswith(".private")]
    tokens = model.prelude().decode().split()
    quotations = {}
    for word in found:
        begin = tokens.index(word.name, tokens.index(":")) + 2
        inputs = tokens[begin : tokens.index("--", begin)]
        quotations[word] = [name in QUOTATION_NAMES for name in inputs]
    return found, quotations


class Author:
    """Makes items at random, with the model as its guide: of those that it makes most are accepted by the checker.

    `slips` is the share of items that are taken whatever the checker says. An abstract stack is a model.Stack, or None where
    nothing behind it is reached. `own` is the row word whose text is made, if it is one. `loops` is the share of uses of row words and of
    the prelude's words among the items.
    """

    # A walk that guides is given up after so many items, and a run after so many ticks.
    MOST_WALKED = 3_000
    MOST_TICKS = 20_000
    # An abstract stack that is higher is tall.
    TALL = 12

    def __init__(self, chance, slips, loops=0.08):
        self.chance = chance
        self.slips = slips
        self.loops = loops
        self.words = []
        self.operations = operations()
        self.marks = model.Marks()
        self.prelude, self.quotations = words_of_prelude()
        self.own = None

    def item(self, depth):
        """An item, with quotations at most so deep in it."""
        chance = self.chance
        share = chance.random()
        if share < 0.14:
            return self.value()
        if share < 0.20:
            return model.Literal(happens(chance, 0.5))
        if share < 0.40 and depth > 0:
            return model.Literal(self.quotation(depth))
        if share < 0.55:
            return named(chance.choice(model.SHUFFLES))
        if share < 0.64:
            return named(chance.choice(self.operations))
        if share < 0.655:
            return named(model.THROW)
        if share < 0.78 and self.words:
            return named(chance.choice(self.words[-6:] if happens(chance, 0.7) else self.words))
        return named(chance.choice(CALLABLE_WORDS))

    def value(self):
        """An item that pushes an integer, a string or an array."""
        if is_built("{") and happens(self.chance, 0.2):
            return model.Literal(self.array(2))
        return model.Literal(self.chance.choice(STRINGS if is_built("string") and happens(self.chance, 0.35) else NUMBERS))

    def array(self, depth):
        """An array of a few literals and words, with arrays and quotations at most so deep in it."""
        elements = []
        for _ in range(self.chance.choice([0, 1, 1, 2, 2, 3])):
            share = self.chance.random()
            if share < 0.2 and depth:
                elements.append(model.Literal(self.array(depth - 1)))
            elif share < 0.3 and depth:
                elements.append(model.Literal(model.Quotation([self.item(0)])))
            elif share < 0.45:
                elements.append(named(self.chance.choice(self.operations + model.SHUFFLES + self.words)))
            else:
                elements.append(model.Literal(self.chance.choice(NUMBERS + STRINGS + [True, False])))
        return model.LiteralArray(elements)

    def sequence(self):
        """Items that push a sequence."""
        share = self.chance.random()
        if share < 0.3:
            return [model.Literal(self.chance.choice([0, 1, 2, 3, 5])), named(IOTA)]
        return [model.Literal(self.chance.choice(STRINGS) if share < 0.5 else self.array(1))]

    def group(self, stack, depth):
        """One item, or the use of a word that takes quotations with the items that push its inputs."""
        chance = self.chance
        if stack is not None and depth > 0 and happens(chance, self.loops):
            words = [word for word in self.words if word.is_row_word()]
            words = words if words and happens(chance, 0.6) else self.prelude
            if words:
                loops, self.loops = self.loops, self.loops / 5
                items = self.use(chance.choice(words), stack, depth)
                self.loops = loops
                return items
        return [self.item(depth)]

    def use(self, word, stack, depth):
        """A use of a word with the items that push its inputs, mostly all of them: quotations fit what the word does with them."""
        chance = self.chance
        rows = {word.outer_rows()[0]: stack}
        items = []
        for number, quotation in enumerate(word.effect.inputs):
            if quotation is not None:
                items.append(model.Literal(self.fitting(quotation, rows, depth - 1)))
            elif self.quotations.get(word, [])[number : number + 1] == [True]:
                items.append(model.Literal(self.quotation(depth)))
            elif word.vocabulary == "sequences" and number == 0 and not happens(chance, 0.1):
                items += self.sequence()
            elif word.name == "times":
                items.append(model.Literal(chance.choice([0, 1, 2, 3, 3, -1])))
            else:
                items.append(self.value() if happens(chance, 0.7) else model.Literal(happens(chance, 0.5)))
        pushed = len(items) if happens(chance, 0.75) else chance.randint(0, len(items))
        return items[len(items) - pushed :] + [named(word)]

    def fitting(self, quotation, rows, depth):
        """A quotation for an input with this effect, where these rows are bound; it binds the row behind it. Few don't fit."""
        chance = self.chance
        start = model.Stack(None, []) if quotation.row_in is None else rows.get(quotation.row_in)
        if start is None:
            return self.quotation(depth + 1)
        start = start.behind(0, *[model.UNKNOWN] * len(quotation.inputs))
        items, stack = self.phrase(start, chance.choice([0, 1, 1, 2, 3, 4]), depth)
        if quotation.outputs is None and stack is not None and not happens(chance, 0.1):
            items += [model.Literal(5), named(model.THROW)]
            stack = None
        if stack is not None and quotation.outputs is not None:
            bound = rows.get(quotation.row_out) or model.Stack(stack.base, [])
            wanted = len(bound.marks) + quotation.outputs
            if quotation.row_out is not None and quotation.row_out not in rows:
                wanted = max(quotation.outputs, len(stack.marks))
            items += [named(model.DROP)] * (len(stack.marks) - wanted)
            while len(stack.marks) < wanted:
                items.append(model.Literal(chance.choice([0, False, True])))
                stack = stack.behind(0, model.UNKNOWN)
            if happens(chance, 0.04):
                items.append(self.item(depth))
        if quotation.row_out is not None and quotation.row_out not in rows:
            rows[quotation.row_out] = None if stack is None else stack.behind(quotation.outputs)
        return model.Quotation(items)

    def quotation(self, depth):
        """A quotation, four times in five of items that can be walked together on a few values."""
        chance = self.chance
        size = 0 if happens(chance, 0.15) else chance.randint(0, 6)
        if happens(chance, 0.8):
            return model.Quotation(self.phrase(model.Stack(None, self.few_marks()), size, depth - 1)[0])
        return model.Quotation([self.item(depth - 1) for _ in range(size)])

    def few_marks(self):
        """Up to three marks, some of them of a quotation."""
        return [self.mark(0.2) for _ in range(self.chance.randint(0, 3))]

    def mark(self, known):
        """The mark of an empty quotation in this share of cases, and else that of an unknown value."""
        return self.marks.of_value(model.Quotation([])) if happens(self.chance, known) else model.UNKNOWN

    def walked(self, items, stack):
        """The abstract stack behind some items. Refused is raised where the checker refuses one."""
        return model.Walk(self.marks, self.own, self.MOST_WALKED).items(items, stack.behind(0), 0)

    def keeps(self, behind, share):
        """Whether an item is kept that leads to this abstract stack. In this share of cases one is given up behind which nothing
        is reached, and mostly one that makes the stack tall."""
        if behind is None:
            return not happens(self.chance, share)
        return len(behind.marks) <= self.TALL or not happens(self.chance, 0.8)

    def phrase(self, stack, count, depth):
        """About so many items from this abstract stack, and the one behind them."""
        items = []
        for _ in range(count * 12):
            if len(items) >= count:
                break
            group = self.group(stack, depth)
            if happens(self.chance, self.slips):
                items += group
                stack = self.behind_slip(group, stack)
            elif stack is None:
                if happens(self.chance, 0.5):
                    break
                items += group
            else:
                try:
                    behind = self.walked(group, stack)
                except model.Refused:
                    continue
                if self.keeps(behind, 0.7):
                    stack = behind
                    items += group
        return items, stack

    def behind_slip(self, group, stack):
        """The abstract stack behind items that were taken unseen: any few marks where the checker refuses one."""
        try:
            return None if stack is None else self.walked(group, stack)
        except model.Refused:
            return model.Stack(stack.base, [model.UNKNOWN] * self.chance.randint(0, 4))

    def running_phrase(self, stack, values, count, depth):
        """As a phrase, but the items run too, from these values, and most that fail or run long are given up. Gives the items,
        the abstract stack and the values behind them. Both are None behind a slip, and the values alone where a run is lost."""
        items = []
        for _ in range(count * 12):
            if len(items) >= count or stack is None:
                break
            group = self.group(stack, depth)
            if happens(self.chance, self.slips / 2):
                return items + group, None, None
            try:
                behind = self.walked(group, stack)
                if not self.keeps(behind, 0.9):
                    continue
                behind_values = None if values is None else self.values_behind(group, values)
            except (model.Refused, model.RunError, model.Spent):
                continue
            stack = behind
            values = behind_values
            items += group
        return items, stack, values

    def values_behind(self, group, values):
        """The values that items leave of these. Where one fails or runs long that is raised, but for a few cases, which are
        kept. Then None is given, and so it is where a word that the checker refuses makes the run stuck."""
        run = model.Run(self.MOST_TICKS, list(values))
        try:
            run.run(group)
        except model.Stuck:
            return None
        except model.RunError:
            if happens(self.chance, 0.95):
                raise
            return None
        except model.Spent:
            if happens(self.chance, 0.98):
                raise
            return None
        return run.stack

    def definition(self, names):
        """A word with one of these names, which is added to the words. Its effect is mostly that of its text; some call
        themselves. Gives the word and the text of its definition."""
        chance = self.chance
        if is_built("SYMBOL:") and happens(chance, 0.1):
            return self.with_no_text(model.Word(chance.choice(names), effect=model.plain_effect(0, 1), symbol=True), "SYMBOL:", "")
        if is_built("CONSTANT:") and happens(chance, 0.1):
            literal = model.Literal(chance.choice(NUMBERS))
            word = model.Word(chance.choice(names), effect=model.plain_effect(0, 1), text=[literal])
            return self.with_no_text(word, "CONSTANT:", written([literal]))
        if is_built("rows") and happens(chance, self.loops):
            return self.row_definition(chance.choice(names))
        inputs = chance.choice([0, 0, 1, 1, 2, 2, 3, 4])
        word = model.Word(chance.choice(names), effect=model.plain_effect(inputs, chance.randint(0, 3)))
        inline = happens(chance, 0.45)
        calls_itself = happens(chance, 0.12 if not inline else 0.02)
        if calls_itself:
            self.words.append(word)
        word.text, behind = self.phrase(model.Stack(None, self.marks_of_inputs(inputs, inline)), chance.randint(0, 10), 3)
        if not calls_itself:
            self.words.append(word)
        word.effect.outputs = self.outputs(word.effect.outputs, behind, calls_itself)
        word.inline = inline
        word.recursive = happens(chance, 0.05) and (not inline or is_built("rows"))
        return word, self.written_definition(word)

    def written_definition(self, word):
        """The text of a definition, with its marks in any order."""
        marks = ["inline"] * word.inline + ["recursive"] * word.recursive
        self.chance.shuffle(marks)
        return f": {word.name} {written_effect(word.effect)} {written(word.text)} ; {' '.join(marks)}"

    def row_definition(self, name):
        """A row word of this name, which is added to the words, and the text of its definition. Its text is made with its effect as the
        guide, and mostly its outer output row and its outputs are those of its text."""
        chance = self.chance
        word = model.Word(name, effect=some_row_effect(chance), inline=not happens(chance, 0.02))
        word.recursive = not word.effect.has_rows() or happens(chance, 0.35)
        self.words.append(word)
        if model.breaks_row_declaration(word) or not word.inline:
            word.text = [self.item(1) for _ in range(chance.randint(0, 3))]
            return word, self.written_definition(word)
        self.own = word
        inputs = [
            model.UNKNOWN if quotation is None else self.marks.of_input(number) for number, quotation in enumerate(word.effect.inputs, 1)
        ]
        items, stack = self.row_phrase(model.Stack(word.outer_rows()[0], inputs), chance.randint(0, 7))
        while stack is not None and stack.marks and happens(chance, 0.8):
            extra = len(stack.marks) > (word.effect.outputs or 0)
            knows = type(stack.marks[-1]) is model.InputMark
            if not (extra or knows):
                break
            group = [named(model.CALL if knows and happens(chance, 0.6) else model.DROP)]
            stack = self.behind_slip(group, stack)
            items += group
        self.own = None
        word.text = items
        self.settle(word, stack)
        return word, self.written_definition(word)

    def row_phrase(self, stack, count):
        """The items of a row word's text, and the abstract stack behind them: inputs are called in many ways."""
        items = []
        for _ in range(count * 6):
            if len(items) >= count or stack is None:
                break
            group = self.chance.choice(ROW_GROUPS)() if happens(self.chance, 0.5) else self.group(stack, 2)
            if happens(self.chance, 0.15 if self.own.recursive else 0.01):
                group = [named(self.own)]
            try:
                behind = self.walked(group, stack)
            except model.Refused:
                if not happens(self.chance, self.slips):
                    continue
                behind = self.behind_slip(group, stack)
            stack = behind
            items += group
        return items, stack

    def settle(self, word, stack):
        """Says in the effect of a row word what its text leaves, mostly."""
        chance = self.chance
        if happens(chance, 0.04):
            return
        if stack is None:
            if happens(chance, 0.5):
                word.effect.outputs, word.effect.row_out = None, None
            return
        word.effect.outputs = len(stack.marks) if happens(chance, 0.97) else chance.randint(0, 3)
        if word.effect.has_rows():
            word.effect.row_out = stack.base if happens(chance, 0.97) else "..b"

    def with_no_text(self, word, head, rest):
        """A word that a form of its name and this rest defines, which is added to the words, and the text of the form."""
        self.words.append(word)
        return word, f"{head} {word.name} {rest}"

    def marks_of_inputs(self, count, inline):
        """The marks on which a word's text is made. An inline word is handed known callables too."""
        if not inline:
            return [model.UNKNOWN] * count
        marks = [self.mark(0.55) for _ in range(count)]
        return [self.marks.of_curry(model.UNKNOWN, mark) if happens(self.chance, 0.15) else mark for mark in marks]

    def outputs(self, guessed, behind, calls_itself):
        """The outputs that a word declares, with this abstract stack behind its text: mostly what is true, sometimes one off."""
        chance = self.chance
        if behind is None:
            return None if happens(chance, 0.6) else chance.randint(0, 3)
        if happens(chance, 0.02):
            return None
        outputs = guessed if calls_itself and happens(chance, 0.5) else len(behind.marks)
        if happens(chance, 0.03):
            return max(0, outputs + chance.choice([-1, 1]))
        return outputs

    def is_accepted(self, word):
        """Whether the checker accepts a word."""
        try:
            model.check_word(self.marks, word)
        except model.Refused:
            return False
        return True


# The word `<iota>`.
IOTA = next(word for word in model.SEQUENCES if word.name == "<iota>")


def group_of(*words):
    """What makes items of these words anew, where a list is a quotation."""

    def make():
        return [model.Literal(model.Quotation(group_of(*word)())) if isinstance(word, list) else named(word) for word in words]

    return make


SHUFFLE = {word.name: word for word in model.SHUFFLES}

# What texts of row words do with their inputs.
ROW_GROUPS = [
    group_of(model.CALL),
    group_of(model.CALL),
    group_of(model.DIP),
    group_of([model.CALL], model.DIP),
    group_of(SHUFFLE["dup"], model.DIP),
    group_of(SHUFFLE["swap"], model.DIP),
    group_of(SHUFFLE["over"], model.DIP),
    group_of(SHUFFLE["swap"], [model.CALL], model.DIP),
    group_of(SHUFFLE["dup"], [model.CALL], model.DIP),
    group_of(SHUFFLE["swap"]),
    group_of(SHUFFLE["drop"]),
    group_of(SHUFFLE["rot"]),
    group_of(SHUFFLE["swap"], [model.CALL], [SHUFFLE["drop"]], model.IF),
    group_of(model.IF),
    group_of(model.CURRY),
    group_of(model.COMPOSE),
    group_of([], model.COMPOSE),
    group_of([[], model.CURRY], model.DIP),
]

ROWS = ["..a", "..b", "..c"]


def some_row_effect(chance):
    """The effect of a row word: mostly one whose rows can be bound from left to right."""
    if happens(chance, 0.15):
        inputs = [some_quotation_effect(chance, [], 0) if happens(chance, 0.5) else None for _ in range(chance.randint(0, 3))]
        return model.Effect(inputs, None if happens(chance, 0.1) else chance.randint(0, 2))
    bound = ["..a"]
    inputs = []
    for _ in range(chance.choice([1, 1, 1, 2, 2, 3])):
        inputs.append(None if happens(chance, 0.3) else some_quotation_effect(chance, bound, 1))
    row_out = chance.choice(bound) if happens(chance, 0.6) else bound[-1]
    said = model.Effect(inputs, chance.choice([0, 0, 0, 1, 1, 2]), "..a", row_out)
    if happens(chance, 0.06):
        said.outputs, said.row_out = None, None
    if happens(chance, 0.07):
        with_a_wrong_row(chance, said)
    return said


def some_quotation_effect(chance, bound, nests):
    """The effect of a quotation input where these rows are bound; it may bind one more, and have inputs with effects as deep as this."""
    inputs = [None] * chance.choice([0, 0, 0, 1, 1, 2])
    if nests and inputs and happens(chance, 0.15):
        inputs[0] = some_quotation_effect(chance, list(bound), nests - 1)
    if not bound or happens(chance, 0.15):
        return model.Effect(inputs, None if happens(chance, 0.25) else chance.choice([0, 1, 1, 2]))
    row_in = chance.choice(bound)
    row_out = chance.choice(bound)
    if len(bound) < len(ROWS) and happens(chance, 0.35):
        row_out = ROWS[len(bound)]
    if nests and row_out not in bound:
        bound.append(row_out)
    elif row_out not in bound:
        row_out = row_in
    return model.Effect(inputs, chance.choice([0, 0, 0, 1, 1, 2]), row_in, row_out)


def with_a_wrong_row(chance, said):
    """Changes one row of an effect to any other, or to none."""
    effects = [said] + [quotation for _, quotation in said.quotations()]
    effects += [nested for quotation in effects[1:] for _, nested in quotation.quotations()]
    changed = chance.choice(effects)
    row = chance.choice([None, *ROWS])
    if happens(chance, 0.5):
        changed.row_in = row
    elif happens(chance, 0.8):
        changed.row_out = row
        changed.outputs = changed.outputs or 0
    else:
        changed.row_out, changed.outputs = None, None


# The kinds of programs: each makes one source from a source of chance.


def running(chance):
    """Aims at programs that are accepted and run to their end, and print what is left: definitions that the checker accepts, and
    a top-level phrase of which each item is run as it is made."""
    return source_of(*running_texts(chance))


def running_texts(chance, loops=0.08):
    """The forms of such a program, with this share of uses of row words and the prelude's words."""
    author = Author(chance, 0.004, loops)
    texts, stack, values = [], model.Stack(None, []), []
    for number in range(chance.randint(0, 8)):
        texts += accepted_definition(author, f"w{number}")
        if happens(chance, 0.3) and stack is not None:
            items, stack, values = author.running_phrase(stack, values, chance.randint(1, 4), 3)
            texts.append(written(items))
    if stack is not None:
        items, stack, values = author.running_phrase(stack, values, chance.randint(5, 40), 4)
        texts.append(written(items))
    return texts + [". " * height(stack)]


def height(stack):
    """How many marks there are on an abstract stack."""
    return 0 if stack is None else len(stack.marks)


def accepted_definition(author, name):
    """The text of a definition of this name that the checker accepts, or nothing after many tries. Rarely it is refused."""
    for _ in range(20):
        word, text = author.definition([name])
        if author.is_accepted(word) or happens(author.chance, 0.01):
            return [text]
        author.words.pop()
    return []


def guided(chance, slips=0.02, names=None):
    """Aims at programs of which the checker accepts most items: what they leave is printed, though not all run that far."""
    return source_of(*guided_texts(chance, slips, names))


def guided_texts(chance, slips=0.02, names=None, loops=0.08):
    """The forms of such a program, with this share of uses of row words and the prelude's words."""
    author = Author(chance, slips, loops)
    names = names or [f"w{number}" for number in range(40)]
    texts, stack = [], model.Stack(None, [])
    for _ in range(chance.randint(0, 8)):
        taken = {word.name for word in author.words} if happens(chance, 0.99) else set()
        texts.append(author.definition([name for name in names if name not in taken])[1])
        if happens(chance, 0.2) and stack is not None:
            items, stack = author.phrase(stack, chance.randint(1, 3), 2)
            texts.append(written(items))
    if stack is not None:
        items, stack = author.phrase(stack, chance.randint(3, 25), 4)
        texts.append(written(items))
    return texts + [". " * height(stack), "." if happens(chance, 0.05) else ""]


def hiding(chance):
    """Aims at names: words of the file that are named as primitive words are, or nearly as integers and reserved tokens."""
    names = "dup swap call if + . t1 drop dip curry < foo: ..x a:b !x compose not ? 0x - +5 !! 1,, 0X1 \xc3\xa9".split()
    names += "keep when times loop sq (each-integer) bi".split() if is_built("prelude") else []
    return guided(chance, 0.03, names)


def row_words(chance):
    """Aims at row words: half of the definitions are row words, and half of the items belong to their uses or to those of the prelude's
    words. Most are accepted, or nearly."""
    if happens(chance, 0.4):
        return source_of(*running_texts(chance, 0.5))
    return source_of(*guided_texts(chance, chance.choice([0, 0.01, 0.05]), None, 0.5))


def one_row_word(chance):
    """Aims at the rules of rows: one or two row words with any effects, and a use of one of them with a token changed here and there."""
    author = Author(chance, chance.choice([0, 0.02, 0.1]), 0.3)
    texts = [author.row_definition(f"r{number}")[1] for number in range(chance.choice([1, 1, 2]))]
    below, stack = author.phrase(model.Stack(None, []), chance.randint(0, 2), 1)
    use = author.use(author.words[-1], stack or model.Stack(None, []), 3)
    texts.append(written(below + use + [author.item(1) for _ in range(chance.randint(0, 1))]))
    if happens(chance, 0.2):
        text = with_a_row_changed(chance, " ".join(texts))
        return source_of(text)
    if happens(chance, 0.1):
        names = " ".join(f"DEFER: {word.name}" for word in author.words)
        texts = ["DEFER: u", names, f": u ( -- {chance.choice(['', 'x', '*'])} ) {texts[-1]} ;", *texts[:-1]]
    return source_of(*texts)


def with_a_row_changed(chance, text):
    """A text in which one token of few sorts is taken away, put in twice or replaced by another that is near it."""
    tokens = text.split(" ")
    near = ["..a", "..b", "*", "x", "q:", "call", "dip", "drop", "dup", "swap", "r0", "1", "[", "]", "inline", "recursive", "--"]
    places = [place for place, token in enumerate(tokens) if token in near]
    if places:
        place = chance.choice(places)
        share = chance.random()
        if share < 0.3:
            tokens.pop(place)
        elif share < 0.5:
            tokens.insert(place, tokens[place])
        else:
            tokens[place] = chance.choice(near)
    return " ".join(tokens)


# Row words of all sorts, with how many callables each takes, and what it takes besides.
ROW_WORDS = [
    (": u0 ( ..a p: ( ..a -- ..b ) q: ( ..b -- ..a ) -- ..b ) drop call ; inline", 2, ""),
    (": u1 ( ..a p: ( ..a -- ..b ) q: ( ..a -- ..b ) -- ..b ) drop call ; inline", 2, ""),
    (": u2 ( ..a p: ( ..a -- ..b x ) q: ( ..b x -- ..c ) -- ..c ) [ call ] dip call ; inline", 2, ""),
    (": u3 ( ..a q: ( -- * ) -- ..a ) drop ; inline", 1, ""),
    (": u4 ( ..a q: ( x -- * ) -- * ) 5 swap call ; inline", 1, ""),
    (": u5 ( ..a x q: ( x -- y ) -- ..a y ) call ; inline", 1, "1"),
    (": u6 ( ..a x q: ( x -- y ) p: ( ..a -- ..b ) -- ..b ) 3drop 1 throw ; inline", 2, "1"),
    (": u7 ( ..a q: ( ..a -- ..b ) -- * ) call 5 throw ; inline", 1, ""),
    (": u8 ( ..a q: ( ..a p: ( -- x ) -- ..a ) -- ..a ) [ 3 ] swap call ; inline", 1, ""),
    (": u9 ( q: ( -- x ) -- x ) call ; inline recursive", 1, ""),
    (": v0 ( ..a n q: ( ..a n -- ..a ) -- ..a ) over 0 > [ 2dup 2dip 1 - swap v0 ] [ 2drop ] if ; inline recursive", 1, "2"),
    (": v1 ( ..a p: ( ..a -- ..a ? ) q: ( ..a -- ..a ) -- ..a ) over 2dip rot [ dup 2dip v1 ] [ 2drop ] if ; inline recursive", 2, ""),
    (": v2 ( ..a q: ( ..a -- ..a ) -- ..a q ) ; inline", 1, ""),
    (": v3 ( ..a q: ( -- ..a ) -- ..a ) drop ; inline", 1, ""),
    (": v4 ( ..a ? p: ( ..a -- ..b ) q: ( ..a -- ..b ) -- ..b ) if ; inline", 2, "t"),
]

# Those of the prelude.
PRELUDE_ROW_WORDS = [("loop", 1, ""), ("while", 2, ""), ("until", 2, ""), ("times", 1, "3")]

BORDER_CALLABLES = apart(
    """
    [ ]  [ 1 ]  [ drop ]  [ t ]  [ f ]  [ 1 throw ]  [ dup f ]  [ drop [ 2 ] ]  [ drop l0 ]  l0  l1  [ + ]  [ swap ]  [ nip ]
    [ drop f ]  [ [ 3 ] f ]  [ dup call ]  [ call ]  [ 2drop ]  [ drop l0 f ]  [ swap f ]  [ over ]  l0 [ ] compose  1 l1 curry
    [ f ] [ ] compose  1 [ drop f ] curry  [ l0 swap drop ]  [ drop [ ] f ]  [ f t ]  [ t [ 1 ] [ 2 ] if ]  [ 0 > ]  [ throw ]
    [ dup [ drop l1 ] when f ]  5  s
    """
)

BELOW = apart(
    """
    1  l0  l0 l1  1 l0  f  l0 1  [ ]  l0 l0  t  l1 [ 5 ]  l0 [ ] compose  1 2 3  s  t l0
    """
) + [""] * 4

BEHIND = apart(
    """
    call  drop  .  call .  +  drop call  call call  . .  drop drop  [ + ] call  5 loop  swap call  dup call
    """
) + [""] * 4


def borders(chance):
    """Aims at what a row is bound to: callables of all sorts for row words of all sorts, with known callables on the row, and something
    behind that is walked or never reached."""
    if happens(chance, 0.3):
        definition = ""
        name, count, besides = chance.choice(PRELUDE_ROW_WORDS)
    else:
        definition, count, besides = chance.choice(ROW_WORDS)
        name = definition.split(" ")[1]
    callables = " ".join(chance.choice(BORDER_CALLABLES) for _ in range(count))
    use = f"{chance.choice(BELOW)} {besides} {callables} {name} {chance.choice(BEHIND)}"
    if happens(chance, 0.15):
        other, count, besides = chance.choice(ROW_WORDS[:9])
        definition = f"{other} {definition}" if other != definition else definition
        quotations = [chance.choice(BORDER_CALLABLES) for _ in range(count - 1)] + [f"[ {use} ]"]
        use = f"{chance.choice(BELOW)} {besides} {' '.join(quotations)} {other.split(' ')[1]} {chance.choice(BEHIND)}"
    if happens(chance, 0.25):
        use = f": w ( -- {chance.choice(['', 'x', 'x x', '*'])} ) {use} ; w"
    literals = ": l0 ( -- q ) [ 1 ] ; inline : l1 ( -- q ) [ drop ] ; inline SYMBOL: s"
    return within(run_of(source_of(literals, definition, use)), 3_000)


RECURSIVE_EFFECTS = [
    "( ..a q: ( ..a -- ..a ) -- ..a )",
    "( ..a q: ( ..a -- ..a ? ) -- ..a )",
    "( ..a p: ( ..a -- ..b ? ) q: ( ..b -- ..a ) -- ..b )",
    "( ..a x q: ( ..a x -- ..a ) -- ..a )",
    "( ..a x p: ( ..a -- ..a ) y q: ( ..a y -- ..a ) -- ..a x )",
    "( ..a q: ( -- x ) -- ..a x )",
    "( ..a q: ( x -- * ) -- * )",
    "( n -- )",
    "( n q: ( n -- n ) -- n )",
    "( ..a q: ( ..a -- ..b ) -- ..b )",
]

RECURSIVE_PARTS = apart(
    """
    call  dip  dup dip  over 2dip  rot  swap  drop  dup  over  [ call ] dip  swap [ call ] dip  1  t  2drop  nip  [ ]  [ ] compose
    1 [ drop ] curry  -rot  dup 2dip  2dup 2dip  [ r ] [ drop ] if  [ r ] [ 2drop ] if  [ r ] dip  [ r ] call  r  r  r  [ r ] [ ] if
    [ dup call ] dip  1 -  dup 0 >  5 throw  [ r ] loop  3 swap times  t [ r ] when  [ r ] keep  [ drop ] dip  2dip  pick
    """
)


def own_calls(chance):
    """Aims at a row word's own recursive call: a few words with effects and phrases that nearly fit, whose own call is handed this or
    that."""
    said = chance.choice(RECURSIVE_EFFECTS)
    good = {
        0: ["dup dip r", "dup dip drop", "dup dip dup dip r", "t [ dup dip r ] [ drop ] if", "r", "[ r ] call", "dup [ call ] dip r"],
        1: ["dup dip swap [ r ] [ drop ] if", "dup dip swap [ call drop ] [ r ] if"],
        2: ["over 2dip rot [ dup 2dip r ] [ 2drop ] if", "over 2dip rot [ call ] [ 2drop ] if"],
        3: ["2dup 2dip r", "dupd 2dip r", "over [ call ] dip drop"],
        4: ["r", "2over 2dip r", "[ drop ] dip"],
        5: ["dup call swap drop", "dup call drop r", "r"],
        6: ["5 swap call", "r", "dup 5 swap call r"],
        7: ["dup 0 > [ 1 - r ] [ drop ] if", "r", "drop"],
        8: ["dup [ call ] dip r", "t [ r ] [ call ] if", "call"],
        9: ["call", "dup drop call", "r"],
    }[RECURSIVE_EFFECTS.index(said)]
    parts = chance.choice(good).split(" ")
    if happens(chance, 0.75):
        for _ in range(chance.choice([1, 1, 2])):
            place = chance.randrange(len(parts) + 1)
            if happens(chance, 0.3) and place < len(parts):
                parts.pop(place)
            else:
                parts.insert(place, chance.choice(RECURSIVE_PARTS))
    uses = ["", "", "[ ] r", "[ f ] r", "1 [ drop ] r", "[ f ] [ ] r", "3 r", "1 [ 5 throw ] r ."]
    return within(run_of(source_of(f": r {said} {' '.join(parts)} ; inline recursive {chance.choice(uses)}")), 3_000)


def effects(chance):
    """Aims at effects as they are written: entries of all sorts, some in the wrong place, with any marks and a text of a few items."""
    said = some_written_effect(chance, 2)
    if happens(chance, 0.2):
        tokens = said.split(" ")
        place = chance.randrange(len(tokens))
        share = chance.random()
        if share < 0.4:
            tokens.pop(place)
        else:
            tokens.insert(place, chance.choice(EFFECT_TOKENS))
        said = " ".join(tokens)
    text = " ".join(chance.choice(["drop", "1", "call", "dup", "w", "2drop", "[ ]"]) for _ in range(chance.choice([0, 0, 1, 1, 2, 3])))
    mark = chance.choice(["", "inline", "inline", "inline recursive", "recursive inline", "recursive"])
    source = source_of(f": w {said} {text} ; {mark}", chance.choice(["", "1 w", "[ ] w", "w", "1 [ ] w"]))
    if happens(chance, 0.1):
        tokens = source.split(b" ")
        return b" ".join(tokens[: chance.randint(0, len(tokens))])
    return source


EFFECT_TOKENS = "a x y .. ..a ..b ..: ..a: x: q: *: * ** ( ) -- ; ..b: a: : :: 1 t \"s\" ...".split()


def some_written_effect(chance, nests):
    """An effect of entries at random, with effects in it at most so deep."""

    def side():
        texts = []
        if happens(chance, 0.45):
            texts.append(chance.choice(["..a", "..a", "..b", "..a: c", "..: d", "..", "...", "..a: ( -- )"]))
        for _ in range(chance.choice([0, 0, 1, 1, 2])):
            share = chance.random()
            if share < 0.4 and nests:
                texts.append(f"q: {some_written_effect(chance, nests - 1)}")
            elif share < 0.5:
                texts.append(chance.choice(["x: c", "x: ..a", "x: *", "*: x", "x: t" if happens(chance, 0.2) else "x: w", "a:b", "x"]))
            elif share < 0.57:
                texts.append("*")
            elif share < 0.6:
                texts.append(chance.choice(["..c", "x:", "..a:", "y: z:"]))
            else:
                texts.append("x")
        return " ".join(texts)

    return f"( {side()} -- {'*' if happens(chance, 0.12) else side()} )"


def redefinitions(chance):
    """Aims at the names of the prelude: they are defined or deferred anew in some vocabulary, brought, qualified and used."""
    vocabularies = ["scratchpad", "a", "kernel", "math", "kernel.private", "math.private", "sequences"]
    names = ["keep", "times", "(each-integer)", "while", "sq", "2dip", "when", "odd?", "with", "w"]
    texts = [HEAD] if happens(chance, 0.8) else ["USE: prettyprint"]
    for _ in range(chance.randint(1, 6)):
        name, vocabulary = chance.choice(names), chance.choice(vocabularies)
        texts.append(
            chance.choice(
                [
                    f": {name} ( -- x ) 7 ; {chance.choice(['', 'inline', 'inline recursive'])}",
                    f": {name} ( -- x ) 7 ;",
                    f"IN: {vocabulary}",
                    "<PRIVATE",
                    "PRIVATE>",
                    f"FROM: {vocabulary} => {name} ;",
                    f"QUALIFIED-WITH: {vocabulary} p",
                    f"p:{name} .",
                    f"USE: {vocabulary}",
                    f"{name} .",
                    f"[ 7 ] {name}",
                    f"3 {name} .",
                    f"1 2 [ {name} ] {chance.choice(names)} . .",
                    f"DEFER: {name}",
                    f"SYMBOL: {name}",
                ]
            )
        )
    return within(run_of(" ".join(texts).encode()), 3_000)


def unguided(chance):
    """Aims at the checker's refusals: items at random, in definitions with effects at random."""
    author = Author(chance, 0.02)
    texts = []
    for number in range(chance.randint(0, 4)):
        said = model.plain_effect(chance.randint(0, 3), None if happens(chance, 0.15) else chance.randint(0, 3))
        word = model.Word(f"w{number}", effect=said)
        word.text = [author.item(2) for _ in range(chance.randint(0, 6))]
        mark = chance.choice(["inline", "recursive"]) if happens(chance, 0.4) else ""
        texts.append(f": {word.name} {written_effect(said)} {written(word.text)} ; {mark}")
        author.words.append(word)
    return source_of(*texts, written([author.item(3) for _ in range(chance.randint(0, 12))]))


def mutated(chance):
    """Aims at refusals near good programs: a token or a character is taken away, doubled or replaced, or the file is cut."""
    source = guided(chance, 0.01) if happens(chance, 0.7) else unguided(chance)
    text = source.decode("latin-1")
    for _ in range(chance.choice([1, 1, 1, 2, 3])):
        text = with_a_change(chance, text)
    return text.encode("latin-1")


def with_a_change(chance, text):
    """A text with one change."""
    share = chance.random()
    if share < 0.8:
        return with_a_token_changed(chance, text)
    place = chance.randrange(len(text) + 1)
    if share < 0.88:
        byte = chr(chance.choice([chance.randrange(256), chance.randrange(32, 127)]))
        return text[:place] + byte + text[place + chance.randint(0, 1) :]
    if share < 0.92:
        return text[:place]
    if share < 0.95:
        return text[:place] + text[chance.randrange(place, len(text) + 1) :]
    tokens = text.split(" ")
    tokens.insert(chance.randrange(len(tokens)), using(chance, VOCABULARIES))
    return " ".join(tokens)


def with_a_token_changed(chance, text):
    """A text in which one token is taken away, put in twice, put in from the odd ones or replaced by one of them."""
    tokens = text.split(" ")
    place = chance.randrange(len(tokens))
    share = chance.random()
    if share < 0.19:
        tokens.pop(place)
    elif share < 0.38:
        tokens.insert(place, chance.choice(tokens))
    elif share < 0.81:
        tokens.insert(place, chance.choice(ODD_TOKENS))
    else:
        tokens[place] = chance.choice(ODD_TOKENS)
    return " ".join(tokens)


def using(chance, vocabularies):
    """`USING:` with up to three of these vocabularies."""
    return f"USING: {' '.join(chance.choice(vocabularies) for _ in range(chance.randint(0, 3)))} ;"


def forms(chance):
    """Aims at the grammar and at names: short definitions, `USING:` and items in any order, with odd tokens here and there."""
    texts = [HEAD] if happens(chance, 0.7) else []
    for _ in range(chance.randint(1, 6)):
        share = chance.random()
        if share < 0.25:
            any_names = VOCABULARIES + [some_token(chance, 0.5)]
            texts.append(using(chance, EXISTING_VOCABULARIES if happens(chance, 0.8) else any_names))
        elif share < 0.7:
            texts.append(short_definition(chance))
        else:
            texts.append(" ".join(some_token(chance, 0.1) for _ in range(chance.randint(0, 4))))
    return chance.choice([" ", "\n", "\t", "  ", "\r\n"]).join(texts).encode("latin-1")


def some_token(chance, odd):
    """An odd token in this share of cases, and else a plain one."""
    if happens(chance, odd):
        return chance.choice(ODD_TOKENS)
    return chance.choice("a b w dup + x 1 . drop * f t".split())


def short_definition(chance):
    """A definition of a few tokens, with names that other definitions have too, and any mark or marks."""
    names = "u v w dup + < z q".split()
    name = chance.choice(names) if happens(chance, 0.93) else chance.choice(ODD_TOKENS)
    inputs = effect_names(chance, "a")
    outputs = effect_names(chance, "b") if happens(chance, 0.8) else "*"
    items = [chance.choice(names + ["1", "2", "drop", "dup", "[ 1 ]", "[ ]", "t", "call"]) for _ in range(chance.randint(0, 4))]
    if happens(chance, 0.2):
        items.append(chance.choice(ODD_TOKENS))
    marks = ["", "inline"]
    if happens(chance, 0.5):
        two_marks = ["inline recursive", "recursive inline", "inline inline", "recursive recursive"]
        marks = ["", "", "", "inline", "inline", "recursive", *two_marks]
    return f": {name} ( {inputs} -- {outputs} ) {' '.join(items)} ; {chance.choice(marks)}"


def effect_names(chance, plain):
    """Up to three names of one side of an effect, of which few are odd."""
    return " ".join(some_token(chance, 0.03) if happens(chance, 0.1) else plain for _ in range(chance.randint(0, 3)))


def tokens(chance):
    """Aims at what a token is: an odd one, or one of odd characters, in one place of a good program."""
    token = chance.choice(ODD_TOKENS)
    if happens(chance, 0.4):
        token = "".join(chance.choice("-0123456789xXbBoOaf,+.:;\"!tT[](){}<>=*_@\\|'#") for _ in range(chance.randint(1, 7)))
    pattern = chance.choice(
        [
            HEAD + " TOKEN",
            HEAD + " : TOKEN ( -- x ) 7 ; TOKEN .",
            HEAD + " : w ( TOKEN -- ) drop ; 1 w",
            HEAD + " : w ( -- TOKEN ) 7 ; w .",
            "USING: TOKEN ; 1",
            HEAD + " [ TOKEN ] drop",
            HEAD + " : w ( -- ) ; TOKEN",
            HEAD + " : w ( x -- ) TOKEN ;",
        ]
    )
    return pattern.replace("TOKEN", token).encode("latin-1")


# Characters that tell comments, strings, escapes and words apart. A character is one byte or more of the file.
TELLING = ["\"", "\"", "\\", "!", " ", " ", "\n", "\r", "\t", "n", "q", "a", "1", "]", "\xc3\xa9", "\xe2\x82\xac"]


def telling(chance, count):
    """At most so many of these characters."""
    return "".join(chance.choice(TELLING) for _ in range(chance.randint(0, count)))


def comment(chance):
    """A comment of any characters to the end of its line. Few only look like one, or have no end."""
    if happens(chance, 0.03):
        return chance.choice(["!!", "!x", "!\xc2\xa0", "a!", "-!"])
    begins = chance.choice(["! ", "! ", "! ", "!\t", "!\r", "\n! ", " ! ", "!\x0b"])
    return begins + telling(chance, 12).replace("\n", " ") + ("\n" if happens(chance, 0.97) else "")


def string(chance):
    """A string of any characters. Few have a fault."""
    parts = ["\\n", "\\t", "\\r", "\\\\", '\\"', " ", "!", " ! ", "a", "\t", "\r", "; ", "]", "\xc3\xa9", "\xe2\x82\xac"]
    if happens(chance, 0.2):
        parts += ["\\", "\n", '"', "\\q", "\\\n", "\\\xc3\xa9", "\xff", "\\\r"]
    inside = "".join(chance.choice(parts) for _ in range(chance.randint(0, 6)))
    return '"' + inside + chance.choice(['"', '"', '"', '"', '"', '"\n', '"\t', '""', '"a', "", '"!'])


def with_texts(chance, text, texts):
    """A text with these texts between its tokens."""
    tokens = text.split(" ")
    for inserted in texts:
        tokens.insert(chance.randrange(len(tokens) + 1), inserted)
    return " ".join(tokens)


def commented(chance):
    """Aims at comments: programs of other kinds, with comments between their tokens, which count for no place."""
    text = chance.choice([guided, unguided, running])(chance).decode("latin-1")
    return with_texts(chance, text, [comment(chance) for _ in range(chance.randint(1, 6))]).encode("latin-1")


def faulty(chance):
    """Aims at files without tokens, and at strings: strings and telling characters in a short file."""
    if happens(chance, 0.4):
        return telling(chance, 12).encode("latin-1")
    text = chance.choice(["1 2", HEAD + " 1 .", "\xc3\xa9 ! \xc3\xa9\n1", ""])
    texts = [chance.choice([string, string, comment])(chance) for _ in range(chance.randint(1, 3))]
    return with_texts(chance, text, texts).encode("latin-1")


def integers(chance):
    """Aims at the forms of integers: integers of any width in any form are printed, and few have a character changed."""
    texts = []
    for _ in range(chance.randint(1, 4)):
        value = near_a_limit(chance) if happens(chance, 0.3) else some_integer(chance)
        texts.append(written_integer(chance, value))
    if happens(chance, 0.15):
        place = chance.randrange(len(texts))
        at = chance.randrange(len(texts[place]) + 1)
        changed = chance.choice(",-0189afgAFxXobB+._")
        texts[place] = texts[place][:at] + changed + texts[place][at + chance.randint(0, 1) :]
    return source_of(*[f"{text} ." for text in texts])


def written_integer(chance, value):
    """An integer in any of its forms."""
    sign = "-" if value < 0 or value == 0 and happens(chance, 0.5) else ""
    zeros = "0" * chance.randint(1, 60) if happens(chance, 0.3) else ""
    mark, form = chance.choice([("", "d"), ("", "d"), ("0x", "x"), ("0x", "X"), ("0o", "o"), ("0b", "b")])
    digits = zeros + format(abs(value), form)
    if not mark and happens(chance, 0.7):
        share = chance.random()
        digits = digits[0] + "".join("," * happens(chance, share) + digit for digit in digits[1:])
    if form == "x" and happens(chance, 0.5):
        digits = "".join(chance.choice([digit, digit.upper()]) for digit in digits)
    return sign + mark + digits


def nested(chance, text, levels):
    """A text inside so many nested applications of several sorts: the definitions that this takes, and the text."""
    definitions = []
    for _ in range(levels):
        share = chance.random()
        if share < 0.6:
            text = f"[ {text} ] call"
        elif share < 0.7:
            text = f"7 [ {text} ] dip drop"
        elif share < 0.77:
            text = f"t [ {text} ] [ 9 throw ] if"
        elif share < 0.8:
            text = f"f [ 9 throw ] [ {text} ] if"
        elif share < 0.84 and is_built("prelude"):
            text = chance.choice([f"[ {text} f ] loop", f"1 [ {text} ] times", f"t [ {text} ] when", f"[ f ] [ {text} ] while"])
        elif share < 0.9:
            text = f"[ ] [ {text} ] compose call"
        else:
            definitions.append(f": z{len(definitions)} ( -- ) {text} ; inline")
            text = f"z{len(definitions) - 1}"
    return " ".join(definitions), text


USES_OF_CHAINS = apart(
    """
    call  call  call  7 swap dip drop  t swap [ ] if  t swap [ 3 ] swap if  f swap [ ] swap if  f swap dup if
    t [ ] rot if  [ call ] call  dup call call  [ ] compose call  1 swap curry call  drop
    """
)


def chains(chance):
    """Aims at the limits of 64: long chains of `curry` and `compose` are made and applied inside nested applications, so that
    both limits are met from below and from above."""
    links = chance.choice([chance.randint(55, 70), chance.randint(0, 6), chance.randint(60, 66), 64, 65, 63])
    room = 64 - links
    near = [room, room + 1, room - 1, chance.randint(62, 66) - links]
    levels = max(0, chance.choice([0, 0, 1, chance.randint(0, 4), *near, chance.randint(60, 66)]))
    made, definition = chain(chance, links), ""
    if happens(chance, 0.5):
        made, definition = "made", f": made ( -- q ) {made} ; inline"
    definitions, text = nested(chance, f"{made} {chance.choice(USES_OF_CHAINS)}", levels)
    shown = "" if happens(chance, 0.8) else ". . ."
    if happens(chance, 0.3):
        text = f": m ( -- {chance.choice(['*', '', 'x', 'x x'])} ) {text} ; m"
    return source_of(definition, definitions, text, shown)


def chain(chance, links):
    """A callable that is made by so many `curry` or `compose`, nested in the first or second part or in the kept value."""
    base = chance.choice(["[ ]", "[ drop ]", "[ 1 ]", "[ 5 throw ]", "[ call ]", "[ [ ] call ]"])
    share = chance.random()
    if share < 0.45:
        return "1 " * links + base + " curry" * links
    if share < 0.6:
        return base + " [ ] compose" * links
    if share < 0.75:
        return "[ ] " * links + base + " compose" * links
    if share < 0.85:
        return base + " [ ] swap compose" * links
    if share < 0.93:
        doubled = " dup compose" if links < 8 else " [ 1 ] compose"
        steps = [" [ ] compose", " [ ] swap compose", " 1 swap curry", " dup drop 2 swap curry", doubled]
        return base + "".join(chance.choice(steps) for _ in range(links))
    return "[ ]" + " 1 swap curry" * links + f" {base} curry"


# Inline words of which `pad-0` is walked as one item, and each further one as twice as many as the one before it and one more.
PADDING = ": pad-0 ( -- ) ; inline " + " ".join(f": pad-{k} ( -- ) pad-{k - 1} pad-{k - 1} ; inline" for k in range(1, 17))


def padding(count):
    """A text that is walked as so many items."""
    words = []
    for k in range(16, -1, -1):
        size = 2 ** (k + 1) - 1
        words += [f"pad-{k}"] * (count // size)
        count %= size
    return " ".join(words)


LAST_ITEMS = apart(
    """
    1  drop  1 2 + .  [ ] call  [ 1 ] call  1 1 [ drop ] curry call .  1 2 3 [ drop ] curry curry curry call
    [ 1 ] [ drop ] compose call  t [ 1 ] [ 2 ] if .  t [ 1 ] [ 2 2 ] if  1 [ 2 ] dip . .  pad-0  pad-1  pad-2 pad-2  +
    call  1 call  if  1 2 3 if  t 1 [ ] if  5 throw  [ 5 throw ] call  [ + ] call  [ pad-0 pad-0 ] call
    f [ 1 throw ] [ pad-1 1 ] if .  dip  1 1 dip  [ dup call ] dup call  curry  1 [ ] curry drop
    t [ [ ] call ] [ pad-2 ] if  [ ] [ ] compose [ ] compose call  1 [ ] curry call  1 2 [ ] curry curry call
    1 [ ] curry 2 [ ] curry compose call  1 [ drop ] curry [ pad-0 ] compose call  [ pad-0 ] [ ] compose call
    [ pad-1 ] [ pad-1 ] compose [ pad-1 ] compose dup compose call
    """
)

# Those with row words.
LAST_ROW_ITEMS = apart(
    """
    [ f ] loop  [ pad-1 f ] loop  [ ] loop  [ 1 f ] loop  3 [ pad-0 ] times  3 [ 1 ] times  [ f ] [ pad-1 ] while  [ f ] [ 1 ] while
    [ + ] loop  1 loop  loop  5 [ 1 ] keep . .  [ t ] [ ] until  [ [ ] [ ] compose call f ] loop  [ f ] [ pad-0 ] compose [ ] while
    1 [ f ] curry loop  1 [ drop f ] curry loop  [ 5 throw ] loop  [ 5 throw ] [ + ] while
    """
)


def large(chance):
    """Aims at the limit of 200,000 walked items: as many stand in front of a text that the limit is met at one of its last items,
    or just behind it, where another rule may be broken too."""
    if is_built("rows", "prelude") and happens(chance, 0.3):
        return large_row_word(chance)
    levels = chance.choice([0, 0, 0, 1, chance.randint(1, 40), chance.randint(60, 66)])
    last = LAST_ITEMS + LAST_ROW_ITEMS if is_built("prelude") else LAST_ITEMS
    text = " ".join(chance.choice(last) for _ in range(chance.choice([1, 1, 2, 3])))
    definitions, text = nested(chance, text, levels)
    count = walked_items(source_of(PADDING, definitions, text))
    left = chance.choice([count, count, max(0, count - 1), count + 1, chance.randint(0, count)])
    before = padding(model.MOST_WALKED_ITEMS - left)
    share = chance.random()
    if share < 0.3:
        text = f": big ( -- {chance.choice(['', '*', 'x'])} ) {before} {text} ; big"
    elif share < 0.45:
        text = f": big ( -- ) {before} ; inline big {text}"
    else:
        text = f"{before} {text}"
    return source_of(PADDING, definitions, text)


LARGE_EFFECTS = [
    "( ..a q: ( ..a x -- ..a ) -- ..a )",
    "( ..a q: ( ..a -- ..a ? ) -- ..a )",
    "( ..a n q: ( ..a -- ..a ) -- ..a )",
    "( ..a q: ( -- ) -- ..a )",
    "( ..a x q: ( ..a x -- ..b ) -- ..b )",
]

LARGE_ENDS = apart(
    """
    call  loop  [ f ] swap while  dup while  1 swap call  r  drop [ ] r  3 swap times  times  [ ] compose call  [ ] compose loop  drop  dip
    [ f ] loop drop  [ drop ] dip loop  dup dip drop  t swap [ ] if  [ call ] loop  [ 5 throw ] [ ] while  curry call  curry loop  [ + ] loop
    """
)


def large_row_word(chance):
    """A row word whose text has nearly as many items as are walked, and then an item that may break another rule too, in nested
    applications or not. It is a use of a row word, the own recursive call or a call of an input."""
    levels = chance.choice([0, 0, chance.randint(1, 3), chance.randint(61, 66)])
    definitions, text = nested(chance, chance.choice(LARGE_ENDS), levels)
    before = padding(model.MOST_WALKED_ITEMS - 2 * levels - chance.randint(0, 4))
    return source_of(PADDING, definitions, f": r {chance.choice(LARGE_EFFECTS)} {before} {text} ; inline recursive")


def walked_items(source):
    """How many items are walked of the top-level phrase of a source, up to its end or the first rule that it breaks."""
    names = model.names_of([model.Reader(1, model.tokens_of(source)).forms()])
    walk = model.Walk(model.Marks())
    try:
        walk.items(names.top, model.Stack(None, []), 0)
    except model.Refused:
        pass
    return walk.walked


def joins(chance):
    """Aims at what is known behind an `if`: branches that leave the same callables or others, which are applied then."""
    texts = ["", "1", "drop 1", "dup", "5 throw", "swap"]
    literals = [f": l{number} ( -- q ) [ {chance.choice(texts)} ] ; inline" for number in range(3)]
    count = chance.randint(1, 3)
    true = [some_callable(chance, 2) for _ in range(count)]
    false = [one if happens(chance, 0.75) else some_callable(chance, 2) for one in true]
    condition = chance.choice(["t", "f", "t not", "f not"])
    body = f"{condition} {branch(chance, true)} {branch(chance, false)} if {uses_of_callables(chance, count)}"
    if happens(chance, 0.4):
        body = f"1 2 3 {body} . . ."
    if happens(chance, 0.3):
        other = body if happens(chance, 0.5) else " ".join(false)
        body = f"t [ {body} ] [ {other} ] if {chance.choice(['', 'call', '.', 'drop'])}"
    if happens(chance, 0.5):
        outputs = chance.choice(["", "x", "x x", "x x x", "*"])
        body = f": w ( -- {outputs} ) {body} ; w {'. ' * chance.randint(0, 3)}"
    return source_of(*literals, body)


def some_callable(chance, depth):
    """A callable: a literal quotation, which mostly is that of an inline word, or one that is made of others."""
    share = chance.random()
    if depth == 0 or share < 0.5:
        return chance.choice(["l0", "l1", "l2", "l0", "[ ]", "[ 1 ]"])
    if share < 0.75:
        kept = chance.choice(["1", "t", some_callable(chance, 0)])
        return f"{kept} {some_callable(chance, depth - 1)} curry"
    return f"{some_callable(chance, depth - 1)} {some_callable(chance, depth - 1)} compose"


def branch(chance, callables):
    """A branch that leaves these callables; some fail, and some leave one value alone."""
    share = chance.random()
    if share < 0.12:
        return f"[ {' '.join(callables)} 5 throw ]"
    if share < 0.16:
        return "[ 1 ]"
    return f"[ {' '.join(callables)} ]"


def uses_of_callables(chance, count):
    """Some uses of so many callables."""
    uses = ["call", "call", "drop", "7 swap dip", "[ ] compose call", "1 swap curry call", "dup call", "t swap [ ] if"]
    return " ".join(chance.choice(uses + [".", "swap"]) for _ in range(chance.randint(1, count + 1)))


WORDS_THAT_END = [
    ": n0 ( -- * ) 1 throw ;",
    ": n1 ( x -- * ) throw ;",
    ": n2 ( -- * ) n2 ;",
    ": i0 ( -- ) 5 throw ; inline",
    ": i1 ( q -- ) call 6 throw ; inline",
    ": i2 ( -- * ) ; inline",
    ": i3 ( -- * ) i0 1 + call ; inline",
]

ENDS = apart(
    """
    n0  3 n1  5 throw  i0  [ ] i1  [ n0 ] call  1 [ 2 throw ] dip  [ 1 throw ] [ ] compose call
    [ ] [ 1 throw ] compose call  t [ n0 ] [ n0 ] if  t [ n0 ] [ 1 ] if  f [ 1 ] [ 4 throw ] if
    t [ 1 throw ] [ + ] if  i2  i3  1 [ throw ] curry call  [ dup ] [ n0 ] if  f [ n0 ] [ ] if  t [ ] [ n0 + + ] if
    """
)

BEHIND_ENDS = apart(
    """
    +  call  drop  1  if  dip  [ + ] call  i0  n1  [ ] dup call  1 2 3 if  dup  2nip  compose  . .  w
    [ 1 ] [ 2 2 ] if
    """
)


def never_returning(chance):
    """Aims at what never returns: ends of several sorts, with items behind them that would break a rule if they were walked."""
    texts = []
    for _ in range(chance.randint(1, 5)):
        share = chance.random()
        plain = ["1", "t", "f", "[ ]", "[ 1 ]", "dup", "."]
        texts.append(chance.choice(ENDS if share < 0.4 else BEHIND_ENDS if share < 0.7 else plain))
    body = " ".join(texts)
    share = chance.random()
    if share < 0.4:
        inputs = chance.choice(["", "a", "a b"])
        outputs = chance.choice(["*", "", "x", "x x", "*"])
        mark = chance.choice(["inline", ""])
        use = chance.choice(["w", "", "1 w", "1 2 w", "w .", "[ w ] call", "t [ w ] [ 1 ] if", "w + +"])
        body = f": w ( {inputs} -- {outputs} ) {body} ; {mark} {use}"
    elif share < 0.6:
        body = f"t [ {body} ] [ {chance.choice(ENDS + BEHIND_ENDS)} ] if {chance.choice(ENDS + BEHIND_ENDS)}"
    return source_of(*WORDS_THAT_END, body)


def recursive(chance):
    """Aims at recursion: four words that name themselves and those before them, also in quotations, inline or not."""
    texts = []
    for name, known in [("a", []), ("b", ["a"]), ("c", ["a", "b", "b"]), ("w", ["a", "b", "c"])]:
        itself = [name] if name == "w" or happens(chance, 0.25) else ["1", "1", "1", name]
        outputs = chance.choice([None, 0, 1, 2, 1])
        mark = chance.choice(["inline", "", "recursive", "inline", "", *["inline recursive"] * 3 * is_built("rows")])
        texts.append(f": {name} {effect(chance.randint(0, 3), outputs)} {recursive_text(chance, itself, known, 3)} ; {mark}")
    uses = ["w", "t w", "f t w", "f f t w .", "t t w . .", "1 w", "[ ] w", "t [ w ] [ ] if"]
    return source_of(*texts, chance.choice(uses))


def recursive_text(chance, itself, known, depth):
    """A text that names the word itself and known words, also in quotations at most so deep."""

    def inner():
        return recursive_text(chance, itself, known, depth - 1) if depth else chance.choice(itself)

    plain = ["t", "f", "1", "drop", "dup", "swap", "not", ".", "over", "nip", "[ ]", "dip", "call", "curry", "throw"]
    texts = []
    for _ in range(chance.randint(0, 4)):
        share = chance.random()
        if share < 0.2:
            texts.append(chance.choice(itself))
        elif share < 0.3:
            texts.append(f"[ {inner()} ]")
        elif share < 0.45:
            texts.append(f"[ {inner()} ] call")
        elif share < 0.6:
            texts.append(f"[ {inner()} ] [ {inner()} ] if")
        elif share < 0.7:
            texts.append(chance.choice(known or ["2"]))
        else:
            texts.append(chance.choice(plain))
    return " ".join(texts)


STEPS = apart(
    """
    1 +  2 *  dup *  1 -  dup +  3 swap -  [ 1 + ] call  1 [ + ] curry call  dup [ + ] curry call
    dup dup [ * ] dip drop  t [ 1 + ] [ 2 * ] if  dup [ ] curry call drop  5 swap [ 2 * ] dip +
    [ 7 * ] [ 1 + ] compose call
    """
)


def long_runs(chance):
    """Aims at long runs that end: words that each call the ones before them several times, or in both branches of an `if`."""
    count = chance.randint(0, 12)
    start = chance.randint(-3, 9)
    step = f": step ( n -- n ) {chance.choice(STEPS)} ; {chance.choice(['', 'inline'])}"
    if happens(chance, 0.5):
        words = [": v0 ( n -- n ) step ;", ": v1 ( ? n -- n ) swap [ step v0 ] [ v0 ] if ;"]
        for number in range(2, count + 1):
            before = f"v{number - 1}"
            words.append(f": v{number} ( ? n -- n ) swap [ step f swap {before} ] [ t swap {before} ] if ;")
        return source_of(step, *words, chance.choice("tf") if count else "", f"{start} v{count} .")
    words = [": v0 ( n -- n ) step ;"]
    for number in range(1, count + 1):
        parts = [f"v{number - 1}", f"v{chance.randrange(number)}", "step", "dup . step"]
        text = " ".join(chance.choice(parts) for _ in range(chance.randint(1, 3)))
        words.append(f": v{number} ( n -- n ) {text} ; {chance.choice(['', 'inline'])}")
    return source_of(step, *words, f"{start} v{count} .")


def limits(chance):
    """Aims at the other limits: quotations some 256 deep, effects of some 64 names, integers and results of some 128 bits, files
    of some 4,194,304 bytes, and the kinds of operands that each operation takes."""
    if happens(chance, 0.03):
        return long_files(chance)
    if happens(chance, 0.03):
        return long_strings(chance)
    sorts = [deep_quotations, wide_effects, integers_at_limits, arithmetic, operands, strings_near_a_note]
    return chance.choice(sorts)(chance)


def long_files(chance):
    """Files that have at most one byte more than is read, or one less."""
    size = model.MOST_BYTES + chance.choice([-1, 0, 1])
    end = source_of("1 .")
    long = b" " * (size - len(end)) + end
    if not is_built("files") or happens(chance, 0.3):
        return long
    cuts = sorted(chance.randint(0, size - len(end)) for _ in range(chance.randint(1, 3)))
    return run_of(*[long[first:last] for first, last in zip([0] + cuts, cuts + [size])])


def long_strings(chance):
    """Strings of nearly as many characters as they may have, or more, which are dropped or printed."""
    unit = chance.choice(["a", "\\n", "\\\"", "\xc3\xa9", " "])
    whole = model.MOST_CHARACTERS if happens(chance, 0.5) else model.MOST_PRINTED_BYTES // len(unit)
    count = min(whole + chance.choice([-3, -2, -1, 0, 1]), model.MOST_CHARACTERS + 1)
    return source_of(f'1 . "{unit * count}"', chance.choice([".", "drop", "length", "dup = .", "write", "print"]))


def strings_near_a_note(chance):
    """An error with a string whose printed form has nearly as many bytes as are told, or more."""
    unit = chance.choice(["a", "\\n", "\xc3\xa9"])
    count = (model.MOST_SHOWN_BYTES - 2) // len(unit) + chance.choice([-1, 0, 1])
    return source_of(f'"{unit * count}{chance.choice(["", "a"])}" throw')


def deep_quotations(chance):
    """Quotations that nest nearly as deep as they may, or deeper."""
    levels = chance.choice([254, 255, 256, 257, 258])
    inner = chance.choice(["", "1", "x", "] [", "[ ]", "] [ [ ] ["])
    text = f"{'[ ' * levels}{inner}{' ]' * levels} {'drop' if happens(chance, 0.7) else '.'}"
    return source_of(f": w ( -- ) {text} ; w" if happens(chance, 0.5) else text)


def wide_effects(chance):
    """An effect of nearly as many names as it may have, or more, some of them `*`, or with effects in it and rows."""
    count = chance.choice([62, 63, 64, 65, 66])
    if is_built("rows") and happens(chance, 0.5):
        return wide_nested_effects(chance, count)
    inputs = chance.choice([0, count, chance.randint(0, count)])
    outputs = ["x"] * (count - inputs)
    if outputs and happens(chance, 0.2):
        outputs, inputs = ["*"], count - 1
    if happens(chance, 0.2):
        outputs = ["*"] * len(outputs)
    text = "drop " * inputs + "2 " * len(outputs)
    if happens(chance, 0.3):
        text = chance.choice(["", "drop", "1"])
    mark = chance.choice(["", "inline"])
    use = chance.choice(["", "1 " * inputs + "w"])
    return source_of(f": w ( {'a ' * inputs}-- {' '.join(outputs)} ) {text} ; {mark} {use}")


def wide_nested_effects(chance, count):
    """An effect of about so many names, of which some have an effect or a class behind them; a name with a colon may be the last one."""
    texts, left, ends = [], count, []
    if happens(chance, 0.3):
        texts.append("..a")
        left -= 1
    while left > 0:
        share = chance.random()
        if share < 0.1:
            texts += ["q:", "("]
            ends.append("-- )")
        elif share < 0.15 and ends:
            texts.append(ends.pop())
            continue
        elif share < 0.2:
            texts += ["x:", "c"]
            left -= 1
        elif left == 1 and happens(chance, 0.4):
            texts += chance.choice([["q:", "( -- )"], ["q:", "c"], ["q:"], ["q:", "( x -- )"], ["q:", "( -- *"]])
        else:
            texts.append("a")
        left -= 1
    said = " ".join(["(", *texts, *reversed(ends), "--", chance.choice(["", "", "..a", "*", "x"]), ")"])
    return source_of(f": w {said} {chance.choice(['', 'drop', '1'])} ; {chance.choice(['', 'inline', 'inline recursive'])}")


def integers_at_limits(chance):
    """An integer near a power of two or ten, some with zeros in front, and an operation on it."""
    value = near_a_limit(chance)
    zeros = "0" * chance.randint(1, 60) if happens(chance, 0.2) else ""
    operand = chance.choice([2, -1, 1, 0, 3, model.LEAST_INTEGER, model.GREATEST_INTEGER, 2**64, -(2**64), 2**63])
    return source_of(f"{'-' if value < 0 else ''}{zeros}{abs(value)} {operand} {chance.choice(BINARY)} .")


# The words of two integers, by their names.
BINARY = [word.name for word in model.ARITHMETIC if word.inputs == 2]


def near_a_limit(chance):
    """An integer near a power of two or ten, in range or not."""
    near = [2**127, 2**127 - 1, -(2**127), 2**63, 2**64, -(2**63), -(2**63) - 1, 2**126, 10**38, 10**39, 2**128]
    return chance.choice(near) + chance.randint(-2, 2)


def some_integer(chance):
    """An integer in range, of any width."""
    return chance.randint(model.LEAST_INTEGER, model.GREATEST_INTEGER) >> chance.randint(0, 127)


def arithmetic(chance):
    """An operation on two integers of any width, of which the second is often a small one or a number of bits."""
    first, second = [some_integer(chance) for _ in range(2)]
    if happens(chance, 0.4):
        second = chance.choice([chance.randint(-3, 3), chance.randint(-130, 130)])
    return source_of(f"{first} dup . {second} dup . {chance.choice(BINARY)} dup . bitnot .")


def operands(chance):
    """A few operations on three values of any kind."""
    kinds = ["t", "f", "1", "[ ]", "[ 1 ] [ ] compose", "1 [ ] curry", "-5", "2", "0", "-1", str(model.GREATEST_INTEGER)]
    kinds += ['"a"', '"a"', '""', '"\\n"'] if is_built("string") else []
    kinds += ["s", "s", "v"] if is_built("SYMBOL:") else []
    kinds += ["{ 1 2 }", "{ }", "{ [ ] }", "3 <iota>"] if is_built("{") else []
    words = [word.name for word in operations()] + "curry compose throw swap rot dup over .".split()
    values = [chance.choice(kinds) for _ in range(3)]
    symbols = "SYMBOL: s SYMBOL: v" if is_built("SYMBOL:") else ""
    return source_of(symbols, *values, *[chance.choice(words) for _ in range(chance.randint(1, 5))], ". .")


VOCABULARY_FORMS = "IN: USE: FROM: QUALIFIED-WITH: DEFER: CONSTANT: <PRIVATE PRIVATE> MAIN:".split()


def spread(chance):
    """Aims at programs of several files and vocabularies: the forms of another kind's program, each in some vocabulary, of which
    every file uses all. Some words are deferred at the beginning."""
    texts = (running_texts if happens(chance, 0.7) else guided_texts)(chance)
    vocabularies = ["v0", "v1", "a.b", "scratchpad"][: chance.randint(1, 4)]
    uses = f"{HEAD[:-2]} {' '.join(vocabularies)} ;"
    begins = [f"IN: {vocabulary}" for vocabulary in vocabularies]
    files = [[]]
    for text in texts:
        if is_built("files") and len(files) < 4 and happens(chance, 0.12):
            files.append([uses, f"IN: {chance.choice(vocabularies)}"])
        vocabulary = chance.choice(vocabularies)
        defines = text.startswith((": ", "SYMBOL: ", "CONSTANT: "))
        if defines and happens(chance, 0.15):
            begins.append(f"IN: {vocabulary} DEFER: {text.split(' ')[1]}")
            text = f"IN: {vocabulary} {text}"
        elif happens(chance, 0.4):
            text = f"IN: {vocabulary} {text}"
        if defines and happens(chance, 0.02):
            text = f"<PRIVATE {text} PRIVATE>"
        files[-1].append(text)
    if happens(chance, 0.05):
        files[-1].append("MAIN: w0")
    files[0] = begins + [uses] + files[0]
    return run_of(*[" ".join(texts).encode("latin-1") for texts in files])


def is_of_a_file(word):
    """Whether a word is defined in a file of the program."""
    return type(word) is model.Word and word.place[0] > 0


class Scopes:
    """Makes forms of vocabularies at random, with the model's names as its guide: of the names that it chooses most aren't refused.
    Each word of a program pushes one value, and most values differ, so the output tells which words the names found.

    `slips` is the share of names that are chosen whatever the guide says.
    """

    NAMES = "w x y z w x y z dup . keep".split()
    VOCABULARIES = "a b c a b c scratchpad a.private b.private kernel".split()
    PREFIXES = ["p", "p", "p", "q"]

    def __init__(self, chance, slips):
        self.chance = chance
        self.slips = slips
        self.names = model.names_of([])
        self.names.begin()
        self.files = [[]]
        self.number = 0

    def write(self, text):
        """Adds a text to the file that is written, and its forms to the names."""
        self.files[-1].append(text)
        for form in model.Reader(len(self.files), model.tokens_of(text.encode())).forms():
            self.names.add(form)

    def begin(self):
        """Begins a file, if there may be one more. Most files use what computes and prints."""
        if is_built("files") and len(self.files) < 4 and self.files[-1]:
            self.files.append([])
            self.names.begin()
        if happens(self.chance, 0.9):
            self.write("USING: kernel prettyprint ;")

    def choose(self, candidates, fits, slips=None):
        """One of these that fits. In the share of slips, and where none fits, it is one that makes a slip, or any of them."""
        if happens(self.chance, self.slips):
            fits = slips
        fitting = [candidate for candidate in candidates if fits is None or fits(candidate)]
        return self.chance.choice(fitting or candidates)

    def vocabulary(self):
        """A vocabulary that exists."""
        return self.choose(self.VOCABULARIES + ["nowhere"], self.names.exists)

    def is_defined(self, name):
        """Whether a name is defined in the table that the next definition goes to."""
        return any(model.is_defined(word) for word in self.holders(name))

    def holders(self, name):
        """What holds a name in the table that the next definition goes to."""
        names = self.names
        return names.holders(names.current + ".private" if names.private else names.current, name)

    def new_name(self):
        """A name that may be defined."""
        return self.choose(self.NAMES, lambda name: not self.is_defined(name), self.is_defined)

    def finds_word(self, name):
        """Whether a name finds a word of the program's files."""
        return [is_of_a_file(word) for word in self.names.find(name).values()] == [True]

    def some_word(self):
        """A name that finds a word of the program."""
        names = [f"{prefix}:{name}" for prefix in self.PREFIXES for name in self.NAMES[:4]]
        if happens(self.chance, 0.6) or not any(self.finds_word(name) for name in names):
            names = self.NAMES
        return self.choose(names, self.finds_word, lambda name: len(self.names.find(name)) != 1)

    def knows_words(self):
        """Whether some name finds a word of the program."""
        return any(self.finds_word(name) for name in self.NAMES)

    def means(self, name):
        """Whether a name finds the word that no file of the program defines."""
        return [is_of_a_file(word) for word in self.names.find(name).values()] == [False]

    def value(self):
        """An item that pushes one value: mostly a new number."""
        self.number += 1
        return str(self.number) if happens(self.chance, 0.85) else f"[ {self.number} ]"

    def phrase(self):
        """Items that push one value, or rarely two."""
        if happens(self.chance, self.slips / 3):
            return f"{self.value()} {self.value()}"
        if not self.knows_words():
            return self.value()
        sorts = [self.value(), self.value(), self.value(), self.some_word(), f"[ {self.some_word()} ]"]
        if self.means("call"):
            sorts.append(f"[ {self.some_word()} ] call")
        if self.means("drop"):
            sorts += [f"{self.some_word()} {self.value()} drop", f"{self.value()} {self.some_word()} drop"]
        return self.chance.choice(sorts)

    def form(self):
        """Writes one form."""
        chance = self.chance
        share = chance.random()
        if share < 0.12 or all(self.is_defined(name) for name in self.NAMES):
            self.write(f"IN: {chance.choice(self.VOCABULARIES + ['d', 'e', 'g'])}")
        elif share < 0.17:
            self.write(chance.choice(["<PRIVATE", "<PRIVATE", "PRIVATE>"]))
        elif share < 0.23:
            self.write(f"USE: {self.vocabulary()}")
        elif share < 0.27:
            self.write(f"USING: {' '.join(self.vocabulary() for _ in range(chance.randint(0, 3)))} ;")
        elif share < 0.36:
            self.bring()
        elif share < 0.43:
            self.write(f"QUALIFIED-WITH: {self.vocabulary()} {chance.choice(self.PREFIXES)}")
        elif share < 0.48:
            self.write(f"DEFER: {self.choose(self.NAMES, lambda name: not self.holders(name), self.holders)}")
        elif share < 0.73 or not self.knows_words():
            self.define()
        elif share < 0.77:
            self.begin_with()
        elif share < 0.81:
            self.begin()
        else:
            self.write(self.shown())

    def shown(self):
        """A name that finds a word of the program, whose value is printed where that can be done."""
        return f"{self.some_word()} {'.' if self.means('.') else ''}"

    def fill(self):
        """Defines some names in each of three vocabularies, and enters one that has none."""
        for vocabulary in "abc":
            self.write(f"IN: {vocabulary}")
            for name in self.NAMES[:4]:
                if happens(self.chance, 0.7):
                    self.write(f"CONSTANT: {name} {self.value()}")
        self.write(f"IN: {self.chance.choice(['d', 'scratchpad'])}")

    def bringing(self):
        """Writes a form that brings names, or shows what a name finds."""
        share = self.chance.random()
        if share < 0.18:
            self.bring()
        elif share < 0.36:
            self.write(f"QUALIFIED-WITH: {self.chance.choice('abc')} p")
        elif share < 0.46 or not self.knows_words():
            self.write(f"USE: {self.chance.choice('abc')}")
        elif share < 0.54:
            self.begin()
        elif share < 0.58:
            self.write(f"CONSTANT: {self.new_name()} {self.value()}")
        else:
            self.write(self.shown())

    def begin_with(self):
        """Writes `MAIN:` with a word of the program, or with a new one that prints what one pushes."""
        name = self.some_word()
        if self.means(".") and happens(self.chance, 0.8):
            self.number += 1
            self.write(f": m{self.number} ( -- ) {name} . ;")
            name = f"m{self.number}"
        self.write(f"MAIN: {name}")

    def bring(self):
        """Writes `FROM:` with names that the vocabulary has."""
        vocabulary = self.vocabulary()
        table = self.names.tables[vocabulary]
        count = self.chance.choice([0, 1, 1, 1, 2, 3]) if table else 0
        names = [self.choose(self.NAMES, table.__contains__, lambda name: name not in table) for _ in range(count)]
        self.write(f"FROM: {vocabulary} => {' '.join(names)} ;")

    def define(self):
        """Writes a definition."""
        share = self.chance.random()
        name = self.new_name()
        if share < 0.2 and is_built("SYMBOL:"):
            self.write(f"SYMBOL: {name}")
        elif share < 0.4:
            self.write(f"CONSTANT: {name} {self.value()}")
        else:
            self.write(f": {name} ( -- x ) {self.phrase()} ; {self.chance.choice(['', '', 'inline', 'recursive'])}")

    def end(self):
        """Defines the words that are only deferred, but for a few."""
        for word in list(self.names.words):
            if not word.defined and not happens(self.chance, self.slips):
                vocabulary = word.vocabulary
                if vocabulary.endswith(".private") and happens(self.chance, 0.5):
                    self.write(f"IN: {vocabulary.removesuffix('.private')} <PRIVATE : {word.name} ( -- x ) {self.phrase()} ; PRIVATE>")
                else:
                    self.write(f"IN: {vocabulary} : {word.name} ( -- x ) {self.phrase()} ;")


def scopes(chance):
    """Aims at vocabularies: which word a name finds, and the refusals of names."""
    made = Scopes(chance, chance.choice([0, 0, 0.01, 0.03, 0.1]))
    made.begin()
    if happens(chance, 0.35):
        made.fill()
        for _ in range(chance.randint(4, 15)):
            made.bringing()
    for _ in range(chance.randint(1, 30)):
        made.form()
    made.end()
    case = run_of(*[" ".join(texts).encode() for texts in made.files])
    if is_built("check") and happens(chance, 0.1):
        case.words[0] = "check"
    return within(case, 3_000)


def within(case, ticks):
    """A case with a budget of so many ticks, where a run may have one."""
    if case.words[0] == "run" and is_built("--steps"):
        return Case(["run", "--steps", str(ticks), *case.words[1:]], case.files, case.given)
    return case


def cycles(chance):
    """Aims at inline words that lead back to themselves through others, some of which are deferred."""
    names = [f"c{number}" for number in range(chance.randint(1, 7))]
    known = [name for name in names if happens(chance, 0.6)]
    texts = [f"DEFER: {name}" for name in known]
    chance.shuffle(names)
    for name in names:
        known.append(name)
        items = [leading(chance, known) for _ in range(chance.choice([0, 1, 1, 1, 2, 3]))]
        mark = chance.choice(["inline", "inline", "inline", "", "recursive", *["inline recursive"] * 3 * is_built("rows")])
        texts.append(f": {name} ( -- ) {' '.join(items)} ; {mark}")
        if happens(chance, 0.05):
            texts.append(chance.choice(known))
    return within(run_of(source_of(*texts, chance.choice(names))), 2_000)


def leading(chance, names):
    """Items that name one or two of these words and leave nothing."""
    one, other = chance.choice(names), chance.choice(names)
    sorts = [one, one, f"[ {one} ] drop", f"[ {one} ] call", f"t [ {one} ] [ {other} ] if", f"f [ {one} ] [ ] if", "1 drop"]
    return chance.choice(sorts + [f"[ {one} ] [ {other} ] compose call", f"1 [ {one} drop ] curry call"])


HEADS = "IN: USE: USING: FROM: QUALIFIED-WITH: DEFER: SYMBOL: CONSTANT: <PRIVATE PRIVATE> MAIN: : => ( -- ) ; [ ]".split()


def noise(chance):
    """Aims at files that are no programs: bytes, characters and tokens at random."""
    share = chance.random()
    if share < 0.15:
        return bytes(chance.randrange(256) for _ in range(chance.randint(0, 40)))
    if share < 0.25:
        return "".join(chr(chance.randrange(9, 127)) for _ in range(chance.randint(0, 40))).encode()
    if share < 0.3:
        return "".join(chr(chance.choice([chance.randrange(128), chance.randrange(0xD800)])) for _ in range(20)).encode()
    tokens = []
    for _ in range(chance.randint(0, 14)):
        pool = chance.choice([ODD_TOKENS, HEADS, HEADS, "a b c w dup + . 1 2 t f".split(), ['"a"', '"\\n b"', "! c\n"]])
        tokens.append(chance.choice(pool))
    return " ".join(tokens).encode("latin-1")


# A form or items each, whose tokens stand one space apart.
TEMPLATES = apart(
    """
    IN: a  USE: math  USING: math kernel ;  USING: ;  FROM: math => + - ;  FROM: kernel => ;  QUALIFIED-WITH: math m  DEFER: d
    SYMBOL: s  MAIN: main  <PRIVATE : p ( -- ) ; PRIVATE>  CONSTANT: c 1  CONSTANT: c [ 1 [ ] "a" ]  CONSTANT: c "a"
    CONSTANT: c f  : w ( a b -- c * ) 1 [ 2 "b" ] w ; inline  : w ( -- * ) w ; recursive  : w ( -- ) ;  [ 1 [ f ] "c" ] 1 "d"
    : main ( -- ) [ [ ] ] 0x1f ;  1 w "a"  : w ( * -- * ) [ ] ; inline
    """
)


def prefixes(chance):
    """Aims at the exact place of a missing tree: whole forms, and the beginning of one, with any token behind it or none."""
    texts = [chance.choice(TEMPLATES) for _ in range(chance.choice([0, 0, 1, 2]))]
    tokens = chance.choice(TEMPLATES).split(" ")
    place = chance.randint(0, len(tokens))
    behind = tokens[place:] if happens(chance, 0.5) else []
    share = chance.random()
    odd = [] if share < 0.25 else [chance.choice(HEADS if share < 0.5 else ODD_TOKENS)]
    return " ".join([*texts, *tokens[:place], *odd, *behind]).encode("latin-1")


def cut(chance):
    """Aims at files that end too early, and at names that are missing then: programs of other kinds, cut behind some token."""
    sorts = [guided, forms, commented]
    if is_built(*VOCABULARY_FORMS):
        sorts += [spread, scopes, scopes]
    made = chance.choice(sorts)(chance)
    case = made if isinstance(made, Case) else run_of(made)
    name = chance.choice(list(case.files))
    tokens = case.files[name].split(b" ")
    case.files[name] = b" ".join(tokens[: chance.randint(0, len(tokens))])
    return case


# Words of a command line.
FIRST_WORDS = ["run"] * 24 + ["check"] * 12 + "build exec list listen gen Run --steps -- -h --help".split() + [""]
NUMBERS_OF_STEPS = """
    0 1 2 3 4 5 7 10 100 0 1 2 3 4 5 7 10 100 0 1 2 3 4 5 7 10 100 0005 0000000000004 00000000000004 1000000000000 1000000000001 9999999999999 10000000000000 -1 +1 1_0 x 0x5 1,0
    5. --steps \u0663 \u00b2
    """.split() + ["", " 5", "5 "]
FILE_NAMES = [FILE, FILE, "b", "b", "c", "c", "\u00e9 d", "-x", "", ".", "..", "missing", "--steps", "5", "check", "run"]

SMALL_SOURCES = [
    b"",
    b"USING: prettyprint ; 1 . 2 .",
    b"USING: prettyprint ; : w ( -- ) 3 . ; w",
    b": v ( -- x ) 1 ; v",
    b": spin ( -- ) spin ; spin",
    b"USING: math ; 1 0 /i",
    b"SYMBOL: s CONSTANT: k 1 : u ( -- ) ; MAIN: u",
    b"IN: z : u ( -- ) ; DEFER: e : e ( -- ) ;",
    b"USING: prettyprint ; 4 .",
    b"USING: prettyprint ; : m ( -- ) 5 . ; MAIN: m 6",
    b": n ( -- ) ; inline : o ( -- ) n ;",
    b"] 1",
    b": w",
    b'"',
    b"\xff",
    b"nothing",
    b"USE: nowhere",
    b"DEFER: gone",
    b"USING: math ; +",
    b": w ( -- x ) ;",
    b"USE: z u",
]


def command_lines(chance):
    """Aims at the words of a command line, and at the order of causes: files of many sorts, some of which are missing."""
    files = {name: chance.choice(SMALL_SOURCES) for name in [FILE, "b", "c", "\u00e9 d", "5"] if happens(chance, 0.9)}
    words = [chance.choice(FIRST_WORDS)]
    if happens(chance, 0.35):
        words += ["--steps", chance.choice(NUMBERS_OF_STEPS)]
    elif happens(chance, 0.1):
        words.append("--stack")
    names = [FILE, "b", "c", "\u00e9 d"] if happens(chance, 0.8) else FILE_NAMES
    words += chance.sample(names, chance.choice([0, 1, 1, 1, 1, 2, 2, 2, 3, 4]))
    if happens(chance, 0.05):
        words.insert(chance.randrange(len(words) + 1), chance.choice(FILE_NAMES + NUMBERS_OF_STEPS))
    if image_model.read_words(words):
        # bench/images.py makes the commands on images
        words[0] = "run"
    return Case(words if happens(chance, 0.98) else [], files)


# Objects


def in_bytes(text):
    """A text as characters of one byte each, as the other texts of sources are."""
    return text.encode().decode("latin-1")


WIDE_STRINGS = [in_bytes(text) for text in ["a", "\u00e9", "\u20ac", "\U0001f600", "a\u00e9\u20ac\U0001f600", "b a", "", "\\n", "\\\""]]
ELEMENTS = apart("0  1  -1  7  0x1F  1,000  t  f  dup  +  if  s  length  w  map  keep  (each-integer)  each  while") + ['"a"', '""']


def some_string(chance):
    """A string with characters of one to four bytes."""
    return '"' + "".join(chance.choice(WIDE_STRINGS) for _ in range(chance.choice([0, 1, 1, 2, 3]))) + '"'


def some_element(chance, depth):
    """An element of a literal array, with brackets at most so deep in it."""
    share = chance.random()
    if depth and share < 0.3:
        return some_array(chance, depth - 1)
    if depth and share < 0.4:
        inside = [some_element(chance, depth - 1) for _ in range(chance.choice([0, 1, 1, 2]))]
        return " ".join(["[", *inside, "]"])
    if share < 0.55:
        return some_string(chance)
    return chance.choice(ELEMENTS[:13])


def some_array(chance, depth, count=None):
    """A literal array, with brackets at most so deep in it."""
    count = chance.choice([0, 1, 1, 2, 2, 3, 5]) if count is None else count
    return " ".join(["{", *[some_element(chance, depth) for _ in range(count)], "}"])


def array_literals(chance):
    """Aims at the brackets of arrays and quotations, and at names in them: nested literals, of which some have a bracket, a name or
    another token too many, too few or in a wrong place. Few are nearly 256 deep."""
    text = some_array(chance, chance.choice([1, 2, 3, 4]))
    if happens(chance, 0.1):
        text = deep_brackets(chance)
    if happens(chance, 0.4):
        tokens = text.split(" ")
        place = chance.randrange(len(tokens))
        share = chance.random()
        wrong = chance.choice(["{", "}", "[", "]"] * 4 + ["(each-integer)", "foo", "while", ";", ":", "inline", "\\", "t", "(", *ODD_TOKENS[:20]])
        if share < 0.3:
            tokens.pop(place)
        elif share < 0.6:
            tokens.insert(place, wrong)
        elif share < 0.9:
            tokens[place] = wrong
        else:
            tokens = tokens[:place]
        text = " ".join(tokens)
    use = chance.choice([".", ".", "dup . length .", "[ . ] each", "first .", "drop", "call", "dup = .", "reverse .", "[ dup . ] map ."])
    pattern = chance.choice(["TEXT USE", "TEXT USE", ": v ( -- x ) TEXT ; v USE", "CONSTANT: c TEXT c USE", "[ TEXT ] call USE", ": v ( -- x ) TEXT ; inline v v eq? . v USE"])
    return source_of("SYMBOL: s : w ( -- ) ;", pattern.replace("TEXT", text).replace("USE", use))


def deep_brackets(chance):
    """Brackets of both sorts that nest nearly as deep as they may, or deeper."""
    opened = [chance.choice("{[") for _ in range(chance.choice([254, 255, 256, 256, 257, 258]))]
    closed = ["}" if bracket == "{" else "]" for bracket in reversed(opened)]
    return " ".join(opened + closed)


PLACES = apart("0  0  1  1  2  3  4  -1  7  1000001  170141183460469231731687303715884105727  -170141183460469231731687303715884105728")
OTHER_VALUES = apart("5  t  f  [ ]  s  { dup } first  1 [ ] curry  -1") + ['"5"']


def some_sequence(chance):
    """A sequence of any sort. Few are long."""
    share = chance.random()
    if share < 0.35:
        return some_string(chance)
    if share < 0.7:
        return some_array(chance, 1)
    if share < 0.95:
        return f"{chance.choice([0, 1, 2, 3, 4, 7])} <iota>"
    return chance.choice(["1000000 <iota>", "1000001 <iota>", "999999 <iota>", "170141183460469231731687303715884105727 <iota>", "1000 f <array>"])


def operand(chance, sort):
    """A value for an input of this sort, by the names of model.SORTS; few are of another one."""
    if happens(chance, 0.12) or sort == "any":
        return chance.choice([some_sequence(chance), chance.choice(OTHER_VALUES), chance.choice(PLACES)])
    if sort == "integer":
        return chance.choice(PLACES)
    if sort == "array":
        return some_array(chance, 1, chance.choice([1, 2, 3, 4]))
    return some_string(chance) if sort == "text" else some_sequence(chance)


# The words of sequences and their like, each with the sorts of its inputs.
SORTED_WORDS = [
    ("length", "sequence"),
    ("nth", "integer sequence"),
    ("nth", "integer sequence"),
    ("set-nth", "any integer array"),
    ("<iota>", "integer"),
    ("append", "sequence sequence"),
    ("append", "text text"),
    ("suffix", "sequence any"),
    ("subseq", "integer integer sequence"),
    ("subseq", "integer integer sequence"),
    ("reverse", "sequence"),
    ("(select)", "sequence sequence"),
    ("<array>", "integer any"),
    ("1array", "any"),
    ("2array", "any any"),
    (">array", "sequence"),
    ("number>string", "integer"),
    ("string>number", "text"),
    ("first", "sequence"),
    ("second", "sequence"),
    ("last", "sequence"),
    ("empty?", "sequence"),
    ("sum", "sequence"),
    ("=", "any any"),
    ("eq?", "any any"),
    ("print", "text"),
    ("+", "integer any"),
]


def sequence_words(chance):
    """Aims at each word of sequences, arrays and math.parser: on values of all kinds with places of all sorts, printed shortly."""
    texts = []
    for _ in range(chance.choice([1, 1, 2, 3])):
        name, sorts = chance.choice(SORTED_WORDS)
        values = [operand(chance, sort) for sort in sorts.split()]
        if name == "set-nth":
            texts += [*values, "[ set-nth ] keep ."] if happens(chance, 0.8) else [*values, name]
        elif name == "<array>" or "1000" in " ".join(values):
            texts += [*values, name, chance.choice(["throw", "length .", "drop", "dup = .", "empty? ."])]
        else:
            texts += [*values, name] + ["."] * (name != "print")
    return source_of("USE: sequences.private SYMBOL: s", *texts)


# What quotations do with an element, by what they leave in its place: a value, or nothing; and what they make of a value and an element.
KEEPING = apart(
    """
    1 +  sq  1array  dup 2array  odd?  2 >  not  drop f  drop { 7 }  reverse  neg  [ 1 + ] call  number>string  first  dup .  { 0 } swap suffix
    { 0 } dup first 1 + 0 pick set-nth first +  dup drop  { dup } suffix  5 throw  0 =  dup =
    """
) + [""]
TAKING = apart(".  drop  1 + .  dup 2array .  { 0 } 0 swap over set-nth .  { 0 } [ 0 swap set-nth ] keep .  [ . ] call  throw")
JOINING = apart("+  -  drop  nip  max  suffix  append  2array  swap  =  swap -  [ + ] call  *  over . +")


def sequence_loops(chance):
    """Aims at `each`, `map`, `filter` and `reduce`: with quotations of all sorts over sequences of all sorts, in one another. Few
    quotations don't leave what they have to."""
    texts = []
    for _ in range(chance.choice([1, 1, 2])):
        sequence = chance.choice([some_sequence(chance), "{ 1 2 3 }", "4 <iota>", "{ { 1 } { 2 3 } }"])
        if len(sequence) > 60 or "00" in sequence or "99" in sequence:
            sequence = "{ 3 1 2 }"
        keeping = " ".join(chance.choice(KEEPING) for _ in range(chance.choice([1, 1, 1, 2])))
        taking, joining = chance.choice(TAKING), chance.choice(JOINING)
        if happens(chance, 0.08):
            keeping, taking, joining = joining, keeping, taking
        texts.append(
            chance.choice(
                [
                    f"{sequence} [ {keeping} ] map .",
                    f"{sequence} [ {keeping} ] map .",
                    f"{sequence} [ {keeping} ] map sum .",
                    f"{sequence} [ {keeping} ] filter .",
                    f"{sequence} [ {taking} ] each",
                    f"0 {sequence} [ {joining} ] each .",
                    f"{sequence} {chance.choice(['0', '{ }', '5'])} [ {joining} ] reduce .",
                    f"{sequence} [ drop 3 <iota> [ {keeping} ] map ] map .",
                    f"{sequence} [ [ {keeping} ] map ] map .",
                    f"{sequence} dup [ {keeping} ] map = .",
                    f"{sequence} [ [ {keeping} ] keep 2array ] map .",
                    f"10 {sequence} [ {joining} ] with map .",
                    f"{sequence} 3 [ {joining} ] curry map .",
                ]
            )
        )
    text = " ".join(texts)
    if happens(chance, 0.2):
        text = f": v ( -- ) {text} ; v v"
    return within(run_of(source_of("SYMBOL: s : w ( -- ) ;", text)), 20_000)


def sharing(chance):
    """Aims at which arrays are the same one: literal arrays in words, constants and loops are changed and seen again."""
    words, texts = [], []
    for number in range(chance.choice([1, 1, 2, 3])):
        array = some_array(chance, chance.choice([0, 1, 2]), chance.choice([1, 2, 2, 3]))
        definition = chance.choice(["CONSTANT: NAME TEXT", ": NAME ( -- x ) TEXT ;", ": NAME ( -- x ) TEXT ; inline", ": NAME ( -- x ) [ TEXT ] call ;"])
        definition = chance.choice([definition, ": NAME ( -- x ) t [ TEXT ] [ { 9 } ] if ;", ": NAME ( -- x ) TEXT 1array first ;"])
        texts.append(definition.replace("NAME", f"a{number}").replace("TEXT", array))
        words.append(f"a{number}")
    for _ in range(chance.choice([2, 3, 4, 6, 8])):
        one, other = chance.choice(words), chance.choice(words)
        place = chance.choice(["0", "0", "0", "1", "1", "2"])
        texts.append(
            chance.choice(
                [
                    f"{one} .",
                    f"7 {place} {one} set-nth {one} .",
                    f"{other} {place} {one} set-nth {one} .",
                    f"{one} {other} eq? .",
                    f"{one} dup {other} = . .",
                    f"{place} {one} nth {place} {other} nth eq? .",
                    f"3 [ {one} dup 5 {place} rot set-nth . ] times",
                    f"{one} dup >array dup 8 0 rot set-nth . .",
                    f"{one} [ 1array ] map dup . drop",
                    f"3 [ {{ 0 }} dup first 1 + 0 pick set-nth . ] times",
                    f"2 {one} <array> dup first 6 0 rot set-nth . {one} .",
                    f"{one} {other} append dup 4 0 rot set-nth . {one} .",
                    f"{one} [ drop 3 {place} {other} set-nth ] each {other} .",
                    f"{one} [ {other} swap suffix ] map .",
                ]
            )
        )
    return source_of("SYMBOL: s : w ( -- ) ;", *texts)


NESTS = apart("1array  5 swap 2array  dup 2array  1array 5 suffix  { } swap suffix  [ 7 ] 2array  3 swap <array>")


def nested_values(chance, levels):
    """Items that make an array that is nested so deep."""
    nest = chance.choice(NESTS)
    if nest in ("dup 2array", "3 swap <array>"):
        levels = min(levels, chance.choice([6, 8, 10]))
    base = chance.choice(["0", "{ }", '"a"', "f", "[ ]", "3 <iota>", "{ 1 2 }"])
    return f"{base} {levels} [ {nest} ] times"


def printing(chance):
    """Aims at printed forms: arrays that are deep, wide or in themselves, near the limits of levels and bytes."""
    share = chance.random()
    if share < 0.35:
        made = nested_values(chance, chance.choice([1, 5, 14, 15, 15, 16, 16, 17, 18, 40]))
    elif share < 0.55:
        count = chance.choice([496, 497, 498, 499, 500])
        made = f"{count} {chance.choice(['0', 't', '10', some_string(chance)])} <array> {chance.choice(['', '', '1 suffix', '100 suffix', '1array', 'reverse'])}"
    elif share < 0.75:
        count = chance.choice([1, 2, 3])
        changes = " ".join(f"dup {chance.randrange(count)} over set-nth" for _ in range(chance.choice([1, 1, 2])))
        made = f"{some_array(chance, 1, count)} {changes}"
    elif share < 0.8:
        count = chance.choice([499_996, 499_997, 499_998, 499_999])
        made = f"{count} 0 <array> {chance.choice(['', '1 suffix', '10 suffix', '100 suffix', '1array'])}"
    elif share < 0.85:
        made = f"0 {chance.choice([15, 17, 30, 60])} [ dup 2array ] times"
        return source_of(made, chance.choice(["throw", "dup eq? .", "length .", "first first length ."]))
    else:
        made = some_array(chance, 4)
    end = chance.choice([".", ".", ".", "throw", "1 +", "print", ". 5 throw", "1 swap curry", "dup . throw"])
    if is_built("--stack") and happens(chance, 0.3):
        return Case(["run", "--stack", FILE], {FILE: source_of("SYMBOL: s : w ( -- ) ;", made, chance.choice(["", "dup", "5", ". 1"]))})
    return source_of("SYMBOL: s : w ( -- ) ;", made, end)


def equality(chance):
    """Aims at `=` and `eq?`: arrays that are alike or nearly, shared, deep, or in themselves, with callables here and there."""
    share = chance.random()
    compared = chance.choice(["=", "=", "=", "eq?"])
    if share < 0.5:
        one = some_array(chance, chance.choice([1, 2, 3]))
        tokens = one.split(" ")
        if happens(chance, 0.5):
            place = chance.randrange(len(tokens))
            if tokens[place] not in ("{", "}", "[", "]"):
                tokens[place] = chance.choice(["0", "[ ]", "t", "{ }", '""', "dup", "2 3"])
        other = " ".join(tokens) if happens(chance, 0.85) else chance.choice(["{ 1 } first", "3 <iota>", some_string(chance), "[ ]"])
        return source_of("SYMBOL: s : w ( -- ) ;", one, other, compared, ".")
    if share < 0.8:
        levels = chance.choice([1, 3, 10, 100, 1000])
        one = nested_values(chance, levels)
        other = chance.choice([one, one, one, nested_values(chance, levels), one.replace("0 ", "1 ", 1), "dup", "dup >array"])
        return source_of(one, other, compared, ".")
    if share < 0.97:
        count = chance.choice([1, 2, 10, 1000, 20_000])
        end = chance.choice(["", "1 suffix", "[ ] suffix", "{ } suffix", "reverse", ">array"])
        return source_of(f"{count} 0 <array> {end} {count} {chance.choice('001')} <array> {chance.choice([end, end, ''])} {compared} .")
    return source_of("{ 0 } dup 0 over set-nth", chance.choice(["{ 0 } dup 0 over set-nth", "dup 1array", "dup >array", "dup", "{ { 5 } }"]), compared, ".")


def numbers_and_texts(chance):
    """Aims at `number>string` and `string>number`: integers of any width in any form, some with a character changed."""
    texts = []
    for _ in range(chance.randint(1, 4)):
        value = near_a_limit(chance) if happens(chance, 0.4) else some_integer(chance)
        text = written_integer(chance, value)
        if happens(chance, 0.15):
            text = chance.choice(["", "-", " 1", "1 ", "t", "\\n1", "1\\n", "0x", "+1", "--1", in_bytes("\u0663"), in_bytes("1\u00a0")])
        if happens(chance, 0.25):
            at = chance.randrange(len(text) + 1)
            text = text[:at] + chance.choice(",-0189afgAFxXobB+._ ") + text[at + chance.randint(0, 1) :]
        if happens(chance, 0.7):
            texts.append(f'"{text}" string>number {chance.choice([".", ".", "dup . number>string print", "number>string string>number ."])}')
        else:
            texts.append(f"{some_integer(chance)} number>string {chance.choice(['.', 'print', 'length .', 'string>number .', 'dup append .'])}")
    return source_of(*texts)


def stacks(chance):
    """Aims at `run --stack`: programs of other kinds, and what they leave; here and there with words that are none of a command."""
    made = chance.choice([running, running, guided, sequence_words, sharing, printing, array_literals])(chance)
    case = made if isinstance(made, Case) else run_of(made)
    files = list(case.files)
    name = files[-1]
    source = case.files[name].decode("latin-1")
    while happens(chance, 0.7) and source.rstrip().endswith("."):
        source = source.rstrip()[:-1].rstrip()
    case.files[name] = source.encode("latin-1")
    words = ["run", "--stack", *files]
    if happens(chance, 0.05):
        words.insert(chance.randrange(len(words) + 1), chance.choice(["--stack", "--steps", "5", FILE]))
    return Case(words, case.files)


def generated(chance):
    """Aims at `gen`: texts of few words that are drawn from seeds, and here and there words that are none of a command."""
    seed = chance.choice([str(chance.randrange(2**31)), str(chance.randrange(2**31)), "0", "1", "2147483647", "0000000007"])
    count = chance.choice([str(chance.randint(1, 60)), str(chance.randint(1, 60)), "1", "2", "00003"])
    words = ["gen", seed, count]
    if happens(chance, 0.1):
        odd = chance.choice(["2147483648", "00000000001", "10001", "000001", "0", "-1", "+1", "", "x", "1_0", "\u0663", "9999999999", "99999", FILE, "gen", "--steps"])
        place = chance.randrange(3)
        words[place : place + chance.randint(0, 1)] = [odd]
    return Case(words, {"gen": b"1 ."} if happens(chance, 0.3) else {})


# Each kind, how many shares of the time it has, and what it needs. A large program takes the model longer than another.
KINDS = [
    (running, 1, []),
    (guided, 1, []),
    (hiding, 1, []),
    (row_words, 3, ["rows", "prelude"]),
    (one_row_word, 3, ["rows"]),
    (borders, 2, ["rows", "prelude", "SYMBOL:"]),
    (own_calls, 2, ["rows", "prelude"]),
    (effects, 1, ["rows"]),
    (redefinitions, 1, ["prelude", "IN:"]),
    (unguided, 1, []),
    (mutated, 1, []),
    (forms, 1, []),
    (tokens, 1, []),
    (commented, 1, []),
    (faulty, 1, []),
    (noise, 1, []),
    (prefixes, 1, []),
    (cut, 1, []),
    (integers, 1, []),
    (chains, 1, []),
    (large, 4, []),
    (joins, 1, []),
    (never_returning, 1, []),
    (recursive, 1, []),
    (long_runs, 1, []),
    (limits, 1, []),
    (spread, 2, VOCABULARY_FORMS),
    (scopes, 3, VOCABULARY_FORMS),
    (cycles, 1, ["DEFER:"]),
    (command_lines, 1, []),
    (generated, 1, ["gen", "prelude"]),
    (array_literals, 2, ["{", "sequence-words"]),
    (sequence_words, 3, ["{", "sequence-words"]),
    (sequence_loops, 2, ["{", "sequence-words"]),
    (sharing, 2, ["{", "sequence-words"]),
    (printing, 2, ["{", "sequence-words"]),
    (equality, 2, ["{", "sequence-words"]),
    (numbers_and_texts, 1, ["{", "sequence-words"]),
    (stacks, 2, ["--stack", "{", "sequence-words"]),
]
