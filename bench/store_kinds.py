"""The kind of cases of values that a machine makes and keeps, which bench/compare.py makes at random: strings, arrays, tuples and callables that
one thing alone leads to, while others are made and dropped. With `bench/budgets.py --eager` each of them goes through many collections."""

from kinds import FILE, Case, happens

HEAD = "USING: accessors arrays combinators fry io kernel locals math prettyprint sequences ; TUPLE: box held ;"

TEXT, ARRAY, BOX, CALLABLE = "text", "array", "box", "callable"

# What makes a value and drops it. Each takes numbers that others had.
GARBAGE = ['"p" "q" append drop', '"p" 1array drop', '"r" box boa drop', '1 [ + ] curry drop', "[ 1 ] [ 2 ] compose drop", '"u" "v" 2array drop']

# From one value to another one: what it takes, what it leaves, and the text. `X` stands for a letter.
CHANGES = [
    (TEXT, TEXT, '"X" append'),
    (TEXT, TEXT, '"X" swap append'),
    (TEXT, ARRAY, "1array"),
    (TEXT, ARRAY, '"X" "y" append 2array'),
    (TEXT, BOX, "box boa"),
    (TEXT, CALLABLE, "[ ] curry"),
    (TEXT, CALLABLE, '[ "X" append ] curry'),
    (TEXT, CALLABLE, "'[ _ ]"),
    (TEXT, CALLABLE, "'[ _ \"X\" append ]"),
    (ARRAY, TEXT, "first"),
    (ARRAY, ARRAY, '"X" "z" append suffix'),
    (ARRAY, ARRAY, '"X" "z" append over 0 swap set-nth'),
    (ARRAY, CALLABLE, "[ first ] curry"),
    (BOX, TEXT, "held>>"),
    (BOX, BOX, '"X" "w" append >>held'),
    (BOX, CALLABLE, "[ held>> ] curry"),
    (CALLABLE, TEXT, "call( -- x )"),
    (CALLABLE, CALLABLE, '[ "X" append ] compose'),
    (CALLABLE, CALLABLE, "[ call( -- x ) ] curry"),
]

# What is written of a value at the end.
SHOWN = {TEXT: "print", ARRAY: ".", BOX: ".", CALLABLE: "call( -- x ) print"}

LETTERS = "abcdefgh"
NAMES = "k l m n o".split()


class Keeper:
    """Makes the body of a word that keeps values, and knows the sort of each: those on the stack, and the locals."""

    def __init__(self, chance):
        self.chance = chance
        self.stack = []
        self.scope = {}

    def letter(self):
        """A letter of a text."""
        return self.chance.choice(LETTERS)

    def made(self):
        """A new text, which isn't one of the program's."""
        self.stack.append(TEXT)
        return f'"{self.letter()}" "{self.letter()}" append'

    def changed(self):
        """A change of the top value, or of another one below a `dip`."""
        if not self.stack:
            return self.made()
        taken = self.stack.pop()
        _, left, text = self.chance.choice([change for change in CHANGES if change[0] == taken])
        self.stack.append(left)
        return text.replace("X", self.letter())

    def below(self):
        """Something done below the top value."""
        if len(self.stack) < 2:
            return self.made()
        kept = self.stack.pop()
        text = self.items(self.chance.choice([1, 1, 2]))
        self.stack.append(kept)
        return f"[ {text} ] dip"

    def bound(self):
        """A local for the top value."""
        if not self.stack:
            return self.made()
        name = self.chance.choice(NAMES)
        self.scope[name] = self.stack.pop()
        return f":> {name}"

    def named(self):
        """A local."""
        if not self.scope:
            return self.made()
        name = self.chance.choice(list(self.scope))
        self.stack.append(self.scope[name])
        return name

    def closed(self):
        """A quotation that keeps a local, as a callable."""
        names = [name for name, sort in self.scope.items() if sort == TEXT]
        if not names:
            return self.named()
        self.stack.append(CALLABLE)
        return f'[ {self.chance.choice(names)} "{self.letter()}" append ]'

    def dropped(self):
        """What is made and dropped."""
        return self.chance.choice(GARBAGE)

    def item(self, inside):
        """One of these; a name is bound at the level of the word alone."""
        makes = [self.made, self.changed, self.changed, self.named, self.closed, self.dropped, self.dropped]
        if not inside:
            makes += [self.below, self.below, self.bound, self.bound]
        return self.chance.choice(makes)()

    def items(self, count, inside=True):
        """So many of them."""
        return " ".join(self.item(inside) for _ in range(count))


def kept_values(chance):
    """Aims at what is given back while a program runs: what a local, a value below a `dip`, a callable, an array or a tuple alone leads to stays
    as it is."""
    keeper = Keeper(chance)
    body = keeper.items(chance.choice([4, 6, 8, 10]), inside=False)
    left = " ".join(SHOWN[sort] for sort in reversed(keeper.stack))
    locals_left = " ".join(f"{name} {SHOWN[sort]}" for name, sort in keeper.scope.items())
    command = ["run", "--stack", FILE] if happens(chance, 0.2) else ["run", FILE]
    return Case(command, {FILE: f"{HEAD} :: w ( -- ) {body} {left} {locals_left} ; w".encode()})


NEEDED = ["::", "'[", "call(", "TUPLE:", "boa", "{", "sequence-words", "prelude", "built-in-classes", "--stack", "--steps"]

# Each kind, how many shares of the time it has, and what it needs.
STORE_KINDS = [(kept_values, 8, NEEDED)]
