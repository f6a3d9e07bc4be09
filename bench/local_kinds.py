"""The kinds of cases of locals and fries that bench/compare.py makes at random. Each makes one case, or the source of a run, from a source
of chance."""

import model
from kinds import Case, apart, happens, padding, PADDING, run_of, with_a_token_changed, within

HEAD = "USING: kernel math io prettyprint sequences arrays combinators ;"

# Names of locals. Some hide words.
NAMES = "a b c d x y q n dup + w0 call cond . a: ..a *".split()

# Those that may stand in an effect as they are.
NAMES_OF_INPUTS = [name for name in NAMES if name not in ("a:", "..a")]

# Words on integers, with the numbers of their inputs and outputs, and those that only move values.
ON_INTEGERS = [("+", 2, 1), ("-", 2, 1), ("max", 2, 1), ("min", 2, 1), ("neg", 1, 1), ("sq", 1, 1), ("1 +", 1, 1), ("abs", 1, 1)]
MOVES = [("drop", "x", ""), ("dup", "x", "xx"), ("swap", "xy", "yx"), ("over", "xy", "xyx"), ("rot", "xyz", "yzx"), ("nip", "xy", "y")]

NUMBER = "n"


def local_source(*texts):
    """The source that uses the vocabularies and has these texts."""
    return " ".join([HEAD, *texts]).encode()


class Weaver:
    """Makes texts with locals and fries that are accepted and run: it knows of each value whether it is an integer or a callable, which
    is the pair of how many integers it takes and how many it leaves.

    `scope` has the names of the locals in scope with what they are, the last one first found. `holes` has for each open fry what is left
    of the values that it took, the deepest first; None stands for an array, in which there are none. `names` and `input_names` are those
    that locals have. Texts with more items than `most_items` get no more quotations."""

    names = NAMES
    input_names = NAMES_OF_INPUTS
    most_items = 120

    def __init__(self, chance):
        self.chance = chance
        self.words = []
        self.scope = []
        self.holes = []
        self.binds = False
        self.size = 0

    def local(self, name):
        """What the local of this name is, if one is in scope."""
        return next((sort for known, sort in reversed(self.scope) if known == name), None)

    def is_free(self, text):
        """Whether no local hides a word of this text."""
        return all(self.local(word) is None for word in text.split(" "))

    def text(self, stack, count, depth):
        """About so many items on values of these sorts, which are changed."""
        tokens = []
        for _ in range(count):
            self.size += 1
            tokens += self.item(stack, depth if self.size < self.most_items else 0)
        return tokens

    def item(self, stack, depth):
        """One item or a few that belong together, on values of these sorts."""
        chance = self.chance
        makes = [self.number, self.named, self.named, self.compute, self.move, self.bind, self.apply, self.apply, self.hole, self.use]
        if depth:
            makes += [self.push_quotation, self.push_fry, self.push_fry, self.choose, self.cases, self.repeat, self.array]
        for _ in range(20):
            tokens = chance.choice(makes)(stack, depth)
            if tokens:
                return tokens
        return self.number(stack, depth)

    def number(self, stack, _=0):
        """An integer."""
        stack.append(NUMBER)
        return [str(self.chance.randint(-3, 9))]

    def named(self, stack, _):
        """A local."""
        if not self.scope:
            return []
        name = self.chance.choice(self.scope)[0]
        stack.append(self.local(name))
        return [name]

    def compute(self, stack, _):
        """A word on integers."""
        text, inputs, outputs = self.chance.choice(ON_INTEGERS)
        if stack[len(stack) - inputs :] != [NUMBER] * inputs or not self.is_free(text):
            return []
        stack[len(stack) - inputs :] = [NUMBER] * outputs
        return text.split(" ")

    def move(self, stack, _):
        """A word that moves values."""
        text, inputs, outputs = self.chance.choice(MOVES)
        if len(stack) < len(inputs) or not self.is_free(text):
            return []
        taken = dict(zip(inputs, stack[len(stack) - len(inputs) :]))
        stack[len(stack) - len(inputs) :] = [taken[output] for output in outputs]
        return [text]

    def bind(self, stack, _):
        """`:>` with any name."""
        if not self.binds or not stack or len(self.scope) > 40:
            return []
        name = self.chance.choice(self.names)
        self.scope.append((name, stack.pop()))
        return [":>", name]

    def apply(self, stack, _):
        """A word that applies the callable on top, or makes one of it."""
        if not stack or stack[-1] == NUMBER:
            return []
        inputs, outputs = stack[-1]
        below = len(stack) - 1
        share = self.chance.random()
        if share < 0.2 and inputs and below and stack[-2] == NUMBER and self.is_free("curry"):
            stack[-2:] = [(inputs - 1, outputs)]
            return ["curry"]
        if share < 0.3 and below and stack[-2] != NUMBER and stack[-2][1] >= inputs and self.is_free("compose"):
            first = stack[-2]
            stack[-2:] = [(first[0], first[1] - inputs + outputs)]
            return ["compose"]
        if share < 0.45 and below > inputs and stack[below - 1 - inputs : below - 1] == [NUMBER] * inputs and self.is_free("dip"):
            kept = stack[-2]
            stack[below - 1 - inputs :] = [NUMBER] * outputs + [kept]
            return ["dip"]
        if below < inputs or stack[below - inputs : below] != [NUMBER] * inputs or not self.is_free("call"):
            return []
        stack[below - inputs :] = [NUMBER] * outputs
        return ["call"]

    def hole(self, stack, _):
        """`_` or `@` for the next value that the fry took."""
        if not self.holes or not self.holes[-1]:
            return []
        sort = self.holes[-1].pop(0)
        inputs = len(stack) if sort == NUMBER else sort[0]
        if inputs <= len(stack) and stack[len(stack) - inputs :] == [NUMBER] * inputs and sort != NUMBER:
            stack[len(stack) - inputs :] = [NUMBER] * sort[1]
            return ["@"]
        stack.append(sort)
        return ["_"]

    def use(self, stack, _):
        """A word that was defined before."""
        words = [word for word in self.words if stack[len(stack) - len(word[1]) :] == word[1] and self.is_free(word[0])]
        if not words:
            return []
        name, inputs, outputs = self.chance.choice(words)
        stack[len(stack) - len(inputs) :] = outputs
        return [name]

    def inside(self, inputs, outputs, depth, named=()):
        """The items of a quotation that takes so many integers, or has these inputs as locals, and leaves so many."""
        known, binds = len(self.scope), self.binds
        self.scope += [(name, NUMBER) for name in named]
        self.binds = binds or bool(named)
        stack = [NUMBER] * inputs if not named else []
        tokens = self.text(stack, self.chance.choice([0, 1, 2, 3, 4, 6]), depth - 1)
        tokens += self.settled(stack, outputs)
        del self.scope[known:]
        self.binds = binds
        return tokens

    def settled(self, stack, outputs):
        """Items behind which there are so many integers, and no others. What is too much is dropped, unless a local hides `drop`."""
        kept = 0
        while kept < min(len(stack), outputs) and stack[kept] == NUMBER:
            kept += 1
        tokens = []
        if self.is_free("drop"):
            tokens += ["drop"] * (len(stack) - kept)
            del stack[kept:]
        while len(stack) < outputs:
            tokens += self.number(stack)
        return tokens

    def quotation(self, inputs, outputs, depth):
        """A quotation that takes so many integers and leaves so many; some bind their inputs."""
        if happens(self.chance, 0.4):
            names = [self.chance.choice(self.names) for _ in range(inputs)]
            if len(set(names)) == inputs:
                body = self.inside(inputs, outputs, depth, names)
                if inputs or happens(self.chance, 0.5):
                    return ["[|", *names, "|", *body, "]"]
                return ["[", *body, "]"]
        return ["[", *self.inside(inputs, outputs, depth), "]"]

    def push_quotation(self, stack, depth):
        """A quotation."""
        inputs, outputs = self.chance.choice([(0, 1), (0, 1), (1, 1), (2, 1), (1, 2), (0, 0)])
        tokens = self.quotation(inputs, outputs, depth)
        stack.append((inputs, outputs))
        return tokens

    def push_fry(self, stack, depth):
        """A fry of the values on top."""
        count = min(len(stack), self.chance.choice([0, 1, 1, 2, 2, 3]))
        inputs, outputs = self.chance.choice([(0, 1), (0, 1), (1, 1), (1, 2)])
        first = len(stack) - count
        self.holes.append(stack[first:])
        body = self.inside(inputs, 0, depth)
        filled = []
        while self.holes[-1]:
            body += self.hole(filled, 0)
        body += self.settled(filled, outputs)
        self.holes.pop()
        stack[first:] = [(inputs, outputs)]
        return ["'[", *body, "]"]

    def choose(self, stack, depth):
        """An `if` of two quotations."""
        inputs = 1 if stack[-1:] == [NUMBER] else 0
        if not self.is_free("0 > if"):
            return []
        test = self.number([]) + ["0", ">"] if not self.scope or happens(self.chance, 0.5) else self.test()
        both = self.quotation(inputs, 1, depth) + self.quotation(inputs, 1, depth)
        stack[len(stack) - inputs :] = [NUMBER]
        return [*test, *both, "if"]

    def test(self):
        """A comparison of a local with a number, if it is one."""
        name = self.chance.choice(self.scope)[0]
        return [name, "3", ">"] if self.local(name) == NUMBER and self.is_free("3 >") else ["5", "3", ">"]

    def cases(self, stack, depth):
        """A `cond`."""
        if not self.is_free("cond > 0 3 5"):
            return []
        holes, self.holes = self.holes, []
        tokens = ["{"]
        for _ in range(self.chance.choice([0, 1, 1, 2])):
            test = self.test() if self.scope else ["5", "3", ">"]
            tokens += ["{", "[", *test, "]", "[", *self.inside(0, 1, depth), "]", "}"]
        tokens += ["[", *self.inside(0, 1, depth), "]", "}", "cond"]
        self.holes = holes
        stack.append(NUMBER)
        return tokens

    def repeat(self, stack, depth):
        """`times` with a quotation that changes the integer on top."""
        if stack[-1:] != [NUMBER] or not self.is_free("times 2"):
            return []
        return ["2", *self.quotation(1, 1, depth), "times"]

    def array(self, stack, depth):
        """An array, in which no local of around is known, that is dropped."""
        if not self.is_free("drop"):
            return []
        scope, self.scope, holes, self.holes = self.scope, [], self.holes, []
        body = self.inside(0, 1, 1)
        self.scope, self.holes = scope, holes
        return ["{", "1", self.chance.choice(["dup", "+", "2", "call"]), "[", *body, "]", "}", "drop"]

    def definition(self, name):
        """A definition of this name, with locals or without them, which takes integers and perhaps a callable, and leaves an integer."""
        inputs = [NUMBER] * self.chance.choice([0, 1, 1, 2, 3])
        inline = happens(self.chance, 0.4)
        if inline and happens(self.chance, 0.7):
            inputs.append(self.chance.choice([(0, 1), (1, 1), (2, 1)]))
        names = [self.chance.choice(self.input_names) for _ in inputs]
        self.binds = len(set(names)) == len(names) and happens(self.chance, 0.85)
        self.scope = list(zip(names, inputs)) if self.binds else []
        stack = [] if self.binds else list(inputs)
        body = self.text(stack, self.chance.choice([1, 3, 5, 8]), 3)
        body += self.settled(stack, 1)
        head = "::" if self.binds else ":"
        self.scope, self.binds = [], False
        self.words.append((name, inputs, [NUMBER]))
        said = " ".join(f"{one}: c" if happens(self.chance, 0.05) else one for one in names)
        return f"{head} {name} ( {said} -- x ) {' '.join(body)} ; {'inline' if inline else ''}"

    def program(self):
        """A program: some definitions, and items whose values are printed."""
        texts = [self.definition(f"w{number}") for number in range(1, self.chance.choice([1, 2, 3, 5]))]
        stack, self.size = [], 0
        tokens = self.text(stack, self.chance.choice([3, 6, 10, 16]), 4)
        return texts + [" ".join(tokens), ". " * len(stack)]


def woven(chance):
    """Aims at programs with locals and fries that are accepted and run: names that hide, callables that keep locals and holes of the texts
    around them, fries in fries, holes in quotations, known callables in locals, and cases with locals."""
    return within(run_of(local_source(*Weaver(chance).program())), 20_000)


LOCAL_TOKENS = ":: [| | :> '[ _ @ [ ] { } a b x y ; : call dup 1 cond inline x! w1 ( ) --".split()


def changed(chance):
    """Aims at refusals of locals and fries: such programs with one token or two taken away, doubled or replaced, or cut."""
    text = local_source(*Weaver(chance).program()).decode()
    for _ in range(chance.choice([1, 1, 2])):
        if happens(chance, 0.3):
            text = with_a_token_changed(chance, text)
            continue
        tokens = text.split(" ")
        places = [place for place, token in enumerate(tokens) if token in LOCAL_TOKENS] or [0]
        place = chance.choice(places)
        share = chance.random()
        if share < 0.3:
            tokens.pop(place)
        elif share < 0.5:
            tokens.insert(place, chance.choice(LOCAL_TOKENS))
        elif share < 0.7:
            tokens[place] = chance.choice(LOCAL_TOKENS)
        elif share < 0.85:
            other = chance.choice(places)
            tokens[place], tokens[other] = tokens[other], tokens[place]
        else:
            tokens = tokens[:place]
        text = " ".join(tokens)
    return within(run_of(text.encode("latin-1", "replace")), 5_000)


LOCAL_TEMPLATES = apart(
    """
    :: w ( -- ) ;  :: w ( a b -- c ) a b + ; inline  :: w ( q: ( a! -- b ) x: c -- y! ) q :> r r ; recursive  [| | ]  [| a b | a ]
    [| a | :> b b ]  '[ _ @ ]  '[ [ _ ] [| a | @ a ] ]  '[ { [ '[ _ ] ] } ]  :: w ( -- x ) { [ 1 :> y y ] } ;  [| a | '[ _ :> b b ] ]
    CONSTANT: c [ [| a | a ] ]  { [ [| a | a ] ] }  : w ( -- ) [| | 1 :> x ] drop ;  M: a g '[ _ call-next-method ] ;
    :: w ( a -- x ) { { [ a ] [ 1 ] } [ 2 ] } cond ;  [| x | [ :> y ] ]  :: w ( ..a q: ( ..a -- ..a ) -- ..a ) q call ; inline recursive
    [ [| a: ..b * | ] ]  :: w ( *: c a!b -- * ) 1 throw ;
    """
)
ODD_LOCAL_TOKENS = LOCAL_TOKENS + "a! x!: t f 1 \"s\" M:: [let ..a a: => < -- inline recursive ! CONSTANT:".split()


def local_forms(chance):
    """Aims at the exact place of a missing tree in locals and fries: whole forms, and the beginning of one, with any token behind it or
    none."""
    texts = [chance.choice(LOCAL_TEMPLATES) for _ in range(chance.choice([0, 0, 1, 2]))]
    tokens = chance.choice(LOCAL_TEMPLATES).split(" ")
    place = chance.randint(0, len(tokens))
    behind = tokens[place:] if happens(chance, 0.6) else []
    odd = [] if happens(chance, 0.2) else [chance.choice(ODD_LOCAL_TOKENS) for _ in range(chance.choice([1, 1, 2]))]
    source = " ".join([*texts, *tokens[:place], *odd, *behind]).encode()
    return Case(["check", "source.factor"], {"source.factor": source}) if happens(chance, 0.5) else source


def random_forms(chance):
    """Aims at the grammar of locals and fries: tokens of theirs in any order, mostly in brackets that close."""
    tokens, open_brackets = [], []
    for _ in range(chance.randint(1, 14)):
        token = chance.choice(ODD_LOCAL_TOKENS if happens(chance, 0.25) else ["[", "'[", "[|", "{", "_", "@", ":>", "a", "1", "]", "]"])
        if token == "[|":
            names = [chance.choice("abc") for _ in range(chance.choice([0, 1, 1, 2]))]
            tokens += ["[|", *names, *(["|"] if happens(chance, 0.95) else [])]
            open_brackets.append("]")
        elif token == ":>":
            tokens += [":>", chance.choice("abc")]
        elif token == "]" and open_brackets:
            tokens.append(open_brackets.pop())
        elif token != "]":
            tokens.append(token)
            if token in ("[", "'[", "{"):
                open_brackets.append("}" if token == "{" else "]")
    if happens(chance, 0.9):
        tokens += reversed(open_brackets)
    before = chance.choice(["", ":: w ( a -- x )", ":: w ( a -- x )", ": w ( a -- x )", "[| b |", "1 2 3"])
    behind = {"::": "; inline", ": ": ";", "[|": "]"}.get(before[:2], "")
    return " ".join([before, *tokens, behind]).encode()


SCOPED = apart(
    """
    a  b  x  y  w  v  1  [ a ]  [ b x ] drop  1 :> a  1 :> b  2 :> x  [ 3 :> y y ] call  y  { a }  { [ a ] }  { { [ a ] [ b ] } } cond
    { { [ t ] [ { x } ] } [ 4 :> x x ] } cond  { [ 1 :> a a ] } cond a  [| a | a b ] drop  [| b a | a ] drop  '[ a b ] drop  5 '[ _ a ] drop
    { [ { { [ a ] [ b ] } } cond ] }  { { [ a ] [ b ] } } drop  { { [ a ] [ b ] } { } } cond  { { [ a 1 ] [ b ] } } { } cond  cond  dup  + v
    [| x x | ] drop  { [ [| a | a { a } ] ] } drop  [ [ [ a x ] call ] call ] call
    """
)


def local_names(chance):
    """Aims at which local or word a name finds, and at refusals of names: texts of a few items that name locals in scope and out of it, in
    arrays and in cases, with words of the same names here and there."""
    texts = [f": {name} ( -- x ) {number} ;" for number, name in enumerate("abxyv", 60) if happens(chance, 0.6)]
    for number in range(chance.choice([1, 1, 2])):
        inputs = chance.sample("abxy", chance.choice([0, 1, 2, 2, 3]))
        if happens(chance, 0.2):
            inputs.append(chance.choice(["cond", "v", "a: c", "x", "z"]))
        items = [chance.choice(SCOPED) for _ in range(chance.choice([1, 2, 3, 5]))]
        name = chance.choice("wvu")
        head = chance.choice(["::", "::", "::", ":"])
        if head == ":":
            items = [one for one in items if ":>" not in one] or ["[| a | a ]"]
        texts.append(f"{head} {name} ( {' '.join(inputs)} -- * ) {' '.join(items)} 5 throw ; {chance.choice(['', 'inline'])}")
    texts.append(chance.choice(["", "1 2 3 w", "1 [| a | a . ] call", "1 2 '[ _ _ ] call . .", "w"]))
    return local_source(*texts)


KEPT = apart("1  2  [ 5 ]  l0  l1  t  1 m0  [ 5 ] m0  l0 m0  l0 m1  1 2 m2  l0 1 m2  l1 l0 m2  1 l0 curry  l0 m3  l0 l1 m4")

KEEPING = apart(
    """
    : l0 ( -- q ) [ 5 ] ; inline  : l1 ( -- q ) [ drop 6 ] ; inline  : m0 ( x -- q ) '[ _ ] ; inline  : m1 ( q -- q ) '[ @ ] ; inline
    :: m2 ( x y -- q ) [ x y ] ; inline  :: m3 ( q -- q ) [ q call ] ; inline  :: m4 ( p q -- q ) q '[ p call @ ] ; inline
    """
)

USES_OF_KEPT = apart(
    """
    call  call  call  drop  [| q | q call ] call  '[ @ ] call  7 swap dip  m1 call  m3 call  1 swap curry call  call call  .
    """
)


def kept_marks(chance):
    """Aims at what is known behind an `if` of callables that keep others: the same in both branches or others, which are applied then; and
    at known callables that go through locals and holes."""
    count = chance.choice([1, 1, 2])
    true = [chance.choice(KEPT) for _ in range(count)]
    false = [one if happens(chance, 0.85) else chance.choice(KEPT) for one in true]
    uses = [chance.choice(USES_OF_KEPT) for _ in range(chance.choice([1, 1, 2]))]
    text = " ".join([f"t [ {' '.join(true)} ] [ {' '.join(false)} ] if", *uses])
    if happens(chance, 0.3):
        text = f": v ( -- {chance.choice(['', 'x', 'x x', '*'])} ) {text} ; v"
    elif happens(chance, 0.3):
        text = f"1 [| z | {text} ] call"
    return local_source(*KEEPING, text, ". " * chance.choice([0, 0, 1, 2]))


ROW_EFFECTS = apart(
    """
    ( ..a n q: ( ..a -- ..a ) -- ..a )  ( ..a n q: ( ..a -- ..a ) -- ..a )  ( ..a n q: ( ..a n -- ..a ) -- ..a )
    ( ..a n q: ( -- x ) -- ..a )  ( ..a n q: ( ..a -- ..b ) -- ..b )  ( n q -- )
    """
)

ROW_TEXTS = apart(
    """
    q call  q dip  n q dip  1 q call  q call q call  n drop q call  [ q call ] call  q '[ @ ] call  q [| p | p call ] call  q n r
    n 0 > [ n 1 - q r ] [ ] if  n 0 > [ q call n 1 - q r ] [ q call ] if  [ q call ] n swap r  n q r  q :> p p call  n :> q q call
    n [ q call ] dip drop  n q curry drop  n [ drop ] q compose call  n 3 > q [ ] if  2 [ q call ] times  q loop  '[ q call ]
    [ q ] call call  drop q call
    """
)

USES_OF_ROW_WORD = apart(
    """
    3 [ ] r  0 3 [ 1 + ] r .  5 3 [| x | x 1 + ] r .  3 [ drop ] r  1 2 '[ _ drop ] r  3 [ 1 ] r . .  7 [| a | a [ a drop ] r ] call
    """
) + [""]


def local_row_words(chance):
    """Aims at row words with locals: their inputs are bound, kept by quotations and called, and handed on in the own recursive call."""
    text = " ".join(chance.choice(ROW_TEXTS) for _ in range(chance.choice([1, 1, 1, 2])))
    marks = chance.choice(["inline", "inline recursive", "inline recursive", "recursive inline", ""])
    definition = f":: r {chance.choice(ROW_EFFECTS)} {text} ; {marks}"
    return within(run_of(local_source(definition, chance.choice(USES_OF_ROW_WORD))), 5_000)


def local_limits(chance):
    """Aims at the limits: 64 locals in scope, 64 holes, 256 levels, 64 nested applications and callables that keep one another, and 200,000
    items."""
    near = chance.choice([62, 63, 64, 64, 65, 66])
    limit = chance.choice([too_many_locals, too_many_locals, too_many_holes, too_many_levels, too_deep, too_deep, too_large])
    return limit(chance, near)


def too_many_holes(chance, near):
    """A fry of about so many holes."""
    hole = chance.choice(["_", "@", "[ _ ]", "[ [| a | @ ] ]", "'[ _ ]", "_ { [ '[ _ ] ] }"])
    return local_source("1 " * chance.choice([near, 64, 65]), "'[", f"{hole} " * near, "] drop")


def too_many_levels(chance, _):
    """Brackets of all sorts, nearly as deep as they may nest, or deeper."""
    opened = []
    for _ in range(chance.choice([255, 256, 256, 257])):
        sorts = ["[", "{"] if opened[-1:] == ["{"] else ["[", "'[", "[| |", "[| a |" if len(opened) < 40 else "[", "{"]
        opened.append(chance.choice(sorts))
    return " ".join(opened + ["}" if one == "{" else "]" for one in reversed(opened)]).encode()


LINKS = apart("'[ _ ]  '[ @ ]  [| x | [ x ] ] call  k  k1  m  '[ [ _ ] ]  1 swap curry  '[ _ call ]")
LINKING = apart(
    """
    :: k ( q -- q ) [ q ] ; inline  :: k1 ( q -- q ) 1 :> y [ y drop q call ] ; inline  : m ( q -- q ) '[ @ ] ; inline
    """
)


def too_deep(chance, near):
    """About so many callables of which each keeps the one before it; the last is applied."""
    base = chance.choice(["[ ]", "[ 7 ]", "1", "[ 5 throw ]", "[ ] [ ] compose", "1 [ ] curry"])
    link = chance.choice(LINKS)
    links = [link if happens(chance, 0.97) else chance.choice(["'[ @ ]", "m"]) for _ in range(near)]
    uses = ["call", "call", "drop", "dup call", "'[ @ ] call", "[| q | q call ] call", "[ ] compose call"]
    return local_source(*LINKING, base, *links, chance.choice(uses))


LAST_ITEMS = apart(
    """
    1 [| a | a ] call  1 2 '[ _ _ ] call  [ ] '[ @ ] call  1 [| a | [ a ] call ] call  '[ _ ]  [| | :> a ] call  [| a | ] call  1 v  v
    """
)


def too_large(chance, _):
    """Nearly as many items as a word's walk may have, and then some with locals or holes."""
    before = padding(model.MOST_WALKED_ITEMS - chance.randint(0, 6))
    return local_source(PADDING, ":: v ( x -- x ) x ; inline", before, chance.choice(LAST_ITEMS), "drop")


def too_many_locals(chance, near):
    """About so many locals in one another's scope, bound in any way."""
    tokens, open_brackets, count = [], [], 0
    if happens(chance, 0.5):
        count = chance.choice([0, 3, near - 2])
        tokens = [":: w (", *[f"a{number}" for number in range(count)], "-- )"]
        open_brackets = [";"]
    else:
        tokens, open_brackets = ["[| |"], ["]"]
    while count < near:
        share = chance.random()
        if share < 0.5:
            tokens += ["1", ":>", chance.choice("ab")]
            count += 1
        elif share < 0.75:
            names = min(near - count, chance.choice([0, 1, 2, 20]))
            tokens += ["[|", *[f"{chance.choice('bc')}{number}" for number in range(names)], "|"]
            count += names
            open_brackets.append("]")
        elif share < 0.85:
            tokens += ["[", "1 :> x", "]", "drop"]
        elif share < 0.95:
            tokens += [chance.choice(["{ [", "'["])]
            open_brackets.append("] }" if tokens[-1] == "{ [" else "]")
        else:
            tokens += ["{ [ 1 :> y y ] }", "drop"]
    return local_source(*tokens, chance.choice(["", "1 :> z", "[| z | ]", "[ 1 :> z ]", "{ [ 1 :> z z ] }"]), *reversed(open_brackets))


NEEDED = ["::", "'[", "{", "sequence-words", "prelude", "IN:", "cond"]

# Each kind, how many shares of the time it has, and what it needs.
LOCAL_KINDS = [
    (woven, 6, NEEDED),
    (changed, 5, NEEDED),
    (local_forms, 3, NEEDED),
    (random_forms, 2, NEEDED),
    (local_names, 3, NEEDED),
    (kept_marks, 3, NEEDED),
    (local_row_words, 3, NEEDED),
    (local_limits, 3, NEEDED),
]
