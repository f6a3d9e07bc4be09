"""The kinds of cases of loops that bench/compare.py makes at random: uses of row words, those of the prelude and a program's own, at callables
that are known there and at others. Each makes one case, or the source of a run, from a source of chance."""

from dataclasses import dataclass

from input_kinds import some_input
from kinds import FILE, Case, apart, happens, with_a_token_changed, within
from local_kinds import HEAD, NUMBER, Weaver

# The most ticks of a run.
MOST_TICKS = 20_000


@dataclass
class RowWord:
    """A word that is handed callables: the text of its definition, how it is used, how many integers a use leaves on the row, and the words
    that have to be defined before it. It has no text where it is one of the prelude.

    In a use `N` is a number of turns, `X` an integer, `S` a sequence of integers and `V` a callable that nothing calls. `Q` is a callable
    that runs on the row; the digit behind it says how many integers it is handed, and one more digit how many it leaves. `P` is the same and
    leaves a truth value, `F` runs on what it is handed alone, and `E` never returns. `W` is a number of turns with a test and a body, `U`
    the same with the test turned round, and `L` a number of turns with a body that tests."""

    text: str
    use: str
    left: int = 0
    needs: tuple = ()

    def name(self):
        """The name of the word."""
        return self.text.split(" ")[1]


def own(effect, text, use, left=0, needs=(), head=":"):
    """A word that is `inline recursive`."""
    name = next(token for token in use.split(" ") if token[0].islower())
    return RowWord(f"{head} {name} ( {effect} ) {text} ; inline recursive", use, left, needs)


ONE = "..a n q: ( ..a -- ..a ) -- ..a"
COUNTING = "..a n q: ( ..a -- ..a ) -- ..a m"
BOTH = "..a n p: ( ..a -- ..a ) q: ( ..a -- ..a ) -- ..a"
TEST_AND_BODY = "..a p: ( ..a -- ..b ? ) q: ( ..b -- ..a ) -- ..b"
INDEXED = "..a i n q: ( ..a i -- ..a ) -- ..a"

# Words that go back to their beginning with the callables that they were handed.
GOING_BACK = [
    own(ONE, "over 0 > [ dup 2dip [ 1 - ] dip turned ] [ 2drop ] if", "N Q turned"),
    own(ONE, "n 0 > [ q call n 1 - q named ] [ ] if", "N Q named", head="::"),
    own(ONE, "n 0 = [ ] [ n '[ _ drop ] call q call n 1 - q fried ] if", "N Q fried", head="::"),
    own(ONE, "n 1 - :> m n 0 > [ q :> p m 5 + drop p call m q bound ] when", "N Q bound", head="::"),
    own(ONE, "over 0 > [ dup 2dip dup 2dip [ 1 - ] dip twice-each ] [ 2drop ] if", "N Q twice-each"),
    own(ONE, "over 0 > [ [ 1 - ] dip [ dip ] keep dipped ] [ 2drop ] if", "N Q dipped"),
    own(ONE, "over 0 > [ dup [ ] compose 2dip [ 1 - ] dip composed ] [ 2drop ] if", "N Q composed"),
    own(ONE, "over 0 > [ dup 4 [ drop ] curry prepose 2dip [ 1 - ] dip curried ] [ 2drop ] if", "N Q curried"),
    own(ONE, "over 0 > [ [ nip call ] 2keep [ 1 - ] [ ] bi* kept ] [ 2drop ] if", "N Q kept"),
    own(ONE, "over 0 > [ [ nip 2 swap times ] 2keep [ 1 - ] dip timed ] [ 2drop ] if", "N Q timed"),
    own(ONE, "over 0 > [ [ nip [ f ] compose loop ] 2keep [ 1 - ] dip looped-once ] [ 2drop ] if", "N Q looped-once"),
    own(ONE, "over 0 > [ dup 2dip [ 1 - ] dip [ ] 2dip told ] [ drop . ] if", "N Q told"),
    own(ONE, "over 0 > [ [ [ ] ] 2dip [ call ] 2dip dup 2dip [ 1 - ] dip with-more ] [ 2drop ] if", "N Q with-more"),
    own(ONE, "{ { [ over 1 < ] [ 2drop ] } { [ over 1 = ] [ nip call ] } [ dup 2dip [ 1 - ] dip chosen ] } cond", "N Q chosen"),
    own(INDEXED, "pick pick < [ pick over curry 3dip [ 1 + ] 2dip indexed ] [ 3drop ] if", "0 N Q1 indexed"),
    own(INDEXED, "i n < [ i q call i 1 + n q up-to ] when", "0 N Q1 up-to", head="::"),
    own(BOTH, "pick 0 > [ dup 3dip over 3dip [ 1 - ] 2dip both ] [ 3drop ] if", "N Q Q both"),
    own(BOTH, "n 0 > [ n even? p q if n 1 - p q in-turn ] [ ] if", "N Q Q in-turn", head="::"),
    own(BOTH, "n 0 > [ n 1 = [ p call ] [ q call ] if n 1 - p q last-other ] when", "N Q Q last-other", head="::"),
    own(
        "..a n p: ( ..a -- ..b ) q: ( ..b -- ..a ) -- ..a",
        "pick 0 > [ over 3dip dup 3dip [ 1 - ] 2dip to-and-fro ] [ 3drop ] if",
        "N Q01 Q10 to-and-fro",
    ),
    own("..a n q: ( ..a n -- ..a ? ) -- ..a m", "n 0 > [ n q call [ n ] [ n 1 - q sought ] if ] [ 0 ] if", "N P1 sought", 1, head="::"),
    own(TEST_AND_BODY, "over 2dip rot [ dup 2dip goes-on ] [ 2drop ] if", "W goes-on drop"),
    own(TEST_AND_BODY, "p call [ q call p q while-named ] [ ] if", "W while-named drop", head="::"),
    own("..a p: ( ..a -- ..a ? ) -- ..a", "dup dip swap [ again ] [ drop ] if", "L again drop"),
    own("..a p: ( ..a -- ..a ? ) -- ..a", "[ call ] keep swap [ again-kept ] [ drop ] if", "L again-kept drop"),
    own("x n q: ( x -- y ) -- y", "over 0 > [ dup 2dip [ 1 - ] dip changed-by ] [ 2drop ] if", "X N F11 changed-by", 1),
    own("x n q: ( x n -- y ) -- y", "n 0 > [ x n q call n 1 - q folded ] [ x ] if", "X N F21 folded", 1, head="::"),
    own("n q: ( -- ) --", "n 0 > [ q call n 1 - q alone ] when", "N F00 alone", head="::"),
    own("n --", "dup 0 > [ 1 - down ] [ drop ] if", "N down"),
    own("n q: ( -- * ) --", "over 0 > [ [ 1 - ] dip not-called ] [ 2drop ] if", "N E not-called"),
    own("n q: ( -- * ) -- *", "over 0 > [ [ 1 - ] dip fails-then ] [ nip call ] if", "N E fails-then"),
]

# Those that call themselves in their midst, or more than once in their text.
IN_THE_MIDST = [
    own(COUNTING, "over 0 > [ dup 2dip [ 1 - ] dip counted 1 + ] [ 2drop 0 ] if", "N Q counted", 1),
    own("n q: ( -- ) -- m", "n 0 > [ n 1 - q added q call n + ] [ 0 ] if", "N F00 added", 1, head="::"),
    own(COUNTING, "over 0 > [ [ 1 - ] dip [ counted-first ] keep drop 1 + ] [ 2drop 0 ] if", "N Q counted-first", 1),
    own(COUNTING, "over even? [ over 0 > [ dup 2dip [ 1 - ] dip of-odd 1 + ] [ 2drop 0 ] if ] [ [ 1 - ] dip of-odd ] if", "N Q of-odd", 1),
    own(COUNTING, "over 0 > [ dup 2dip over 1 = [ [ 1 - ] dip met 1 + ] [ [ 2 - ] dip met 2 + ] if 1 + ] [ 2drop 0 ] if", "N Q met", 1),
    own(COUNTING, "over 0 > [ dup 2dip dup [ [ 1 - ] dip summed ] dip drop 1 + ] [ 2drop 0 ] if", "N Q summed", 1),
    own(COUNTING, "over 0 > [ over [ dup 2dip [ 1 - ] dip under ] dip + ] [ 2drop 0 ] if", "N Q under", 1),
    own(COUNTING, "over 0 > [ over dup 5 [ 2drop ] 2curry drop [ dup 2dip [ 1 - ] dip cells ] dip + ] [ 2drop 0 ] if", "N Q cells", 1),
    own(ONE, "over 0 > [ [ 1 - ] dip [ behind ] 2keep nip call ] [ 2drop ] if", "N Q behind"),
    own(ONE, "over 0 > [ [ 1 - ] dip [ before ] 2keep dup 2dip before ] [ 2drop ] if", "N Q before"),
    own(ONE, "n 0 > [ n 1 - q forked q call n 1 - q forked ] [ ] if", "N Q forked", head="::"),
    own(ONE, "over 0 > [ dup 2dip [ 1 - ] dip at-end ] [ 2drop ] if 5 drop", "N Q at-end"),
    own(ONE, "over 0 > [ dup 2dip [ 1 - ] dip [ in-call ] call ] [ 2drop ] if [ ] call", "N Q in-call"),
    own(ONE, "n 0 > [ n 3 > [ q call ] [ n :> m ] if n 1 - q joined n drop ] when", "N Q joined", head="::"),
    own(ONE, "over 0 > [ over odd? [ dup 2dip ] [ ] if [ 1 - ] dip odd-turns ] [ 2drop ] if 1 drop", "N Q odd-turns"),
    own(ONE, "over 0 > [ over [ [ nip call ] 2keep ] dip drop [ 1 - ] dip over 1 = [ held ] [ held ] if ] [ 2drop ] if", "N Q held"),
    own(BOTH, "n 0 > [ p call n 1 - p q around q call ] [ ] if", "N Q Q around", head="::"),
    own(BOTH, "pick 0 > [ over 3dip [ 1 - ] 2dip dup [ round ] dip call ] [ 3drop ] if", "N Q Q round"),
]

# Those that carry callables on of which the check knows nothing inside: they change places, grow, or come into cells.
CARRYING = [
    own(
        "..a n p q r: ( ..a -- ..a ) -- ..a",
        "[ pick ] dip swap 0 > [ [ 3dip ] keep [ swap ] dip [ [ 1 - ] 2dip ] dip swapped ] [ 2drop 2drop ] if",
        "N V V Q swapped",
    ),
    own("n p q --", "rot dup 0 > [ 1 - -rot swap exchanged ] [ 3drop ] if", "N V V exchanged"),
    own("n p q -- m", "rot dup 0 > [ 1 - -rot swap counted-down 1 + ] [ 3drop 0 ] if", "N V V counted-down", 1),
    own("n p q r --", "n 0 > [ n 1 - q r p rotated ] [ ] if", "N V V V rotated", head="::"),
    own("n p q r --", "[ rot ] dip swap dup 0 > [ 1 - [ rot ] dip swap [ -rot ] dip turned-round ] [ 2drop 2drop ] if", "N V V V turned-round"),
    own("n p q -- p", "rot dup 0 > [ 1 - -rot swap left-of ] [ 2drop ] if", "N F11 F11 left-of 4 swap call( x -- y )", 1),
    own("n p --", "over 0 > [ [ 1 - ] dip [ ] compose growing ] [ 2drop ] if", "N V growing"),
    own("n p --", "over 0 > [ [ 1 - ] dip 5 swap curry curried-on ] [ 2drop ] if", "N V curried-on"),
    own("n p --", "over 0 > [ [ 1 - ] dip dup curry on-itself ] [ 2drop ] if", "N V on-itself"),
    own("n p --", "over 0 > [ [ 1 - ] dip dup compose doubled ] [ 2drop ] if", "N V doubled"),
    own("n p --", "over 0 > [ [ 1 - ] dip drop [ 7 ] replaced ] [ 2drop ] if", "N V replaced"),
    own("n p --", "over 0 > [ [ 1 - ] dip drop dup replaced-by ] [ 2drop ] if", "N V replaced-by"),
    own("x n p q -- y", "n 0 > [ x p call( x -- y ) n 1 - q p tested ] [ x ] if", "X N F11 F11 tested", 1, head="::"),
    own(
        "x n p q -- y",
        "pick 0 > [ over [ call( x -- y ) ] curry 3dip [ 1 - ] 2dip swap tested-on ] [ 3drop ] if",
        "X N F11 F11 tested-on",
        1,
    ),
    own("..a n p q: ( ..a -- ..a ) -- ..a", "pick 0 > [ dup 3dip [ 1 - ] 2dip [ ] [ ] bi* carried ] [ 3drop ] if", "N V Q carried"),
    own(
        "..a n p q: ( ..a -- ..a ) -- ..a",
        "n 0 > [ q call n 1 - n even? [ p ] [ [ 8 ] ] if q either-one ] when",
        "N V Q either-one",
        head="::",
    ),
    own(
        "..a n p q: ( ..a -- ..a ) -- ..a",
        "pick 0 > [ dup 3dip pick even? [ [ 1 - ] 2dip ] [ [ drop [ 9 ] ] dip [ 1 - ] 2dip ] if other-ones ] [ 3drop ] if",
        "N V Q other-ones",
    ),
]

# Expanded words, and row words that hand callables on to loops.
HANDING_ON = [
    RowWord(": twice ( ..a q: ( ..a -- ..a ) -- ..a ) dup dip call ; inline", "Q twice"),
    RowWord(": thrice ( ..a q: ( ..a -- ..a ) -- ..a ) 3 swap times ; inline", "Q thrice"),
    RowWord(": squared ( ..a n q: ( ..a -- ..a ) -- ..a ) 2dup [ times ] 2curry nip times ; inline", "N Q squared"),
    RowWord(":: in-times ( ..a n q: ( ..a -- ..a ) -- ..a ) n [ n [ q call ] times ] times ; inline", "N Q in-times"),
    RowWord(": turned-twice ( ..a n q: ( ..a -- ..a ) -- ..a ) [ turned ] 2keep turned ; inline", "N Q turned-twice", 0, ("turned",)),
    RowWord(": in-turns ( ..a n q: ( ..a -- ..a ) -- ..a ) 2dup [ turned ] 2curry nip turned ; inline", "N Q in-turns", 0, ("turned",)),
    own(ONE, "over 0 > [ [ nip 2 swap turned ] 2keep [ 1 - ] dip deeper ] [ 2drop ] if", "N Q deeper", 0, ("turned",)),
    own(ONE, "over 0 > [ [ turned ] 2keep [ 1 - ] dip narrower ] [ 2drop ] if", "N Q narrower", 0, ("turned",)),
    RowWord(": with-while ( ..a n q: ( ..a -- ..a ) -- ..a ) [ dup 0 > ] swap [ dip 1 - ] curry while drop ; inline", "N Q with-while"),
    RowWord(": with-loop ( ..a n q: ( ..a -- ..a ) -- ..a ) [ dip 1 - dup 0 > ] curry loop drop ; inline", "N Q with-loop"),
]

OWN_WORDS = GOING_BACK + IN_THE_MIDST + CARRYING + HANDING_ON
BY_NAME = {word.name(): word for word in OWN_WORDS}

# Loops of the prelude.
OF_PRELUDE = [
    RowWord("", use, left)
    for use, left in [
        ("N Q times", 0),
        ("N Q times", 0),
        ("S Q1 each", 0),
        ("S Q1 each", 0),
        ("S Q11 map length", 1),
        ("S Q11 map sum", 1),
        ("S Q11 map [ + ] each", -1),
        ("S P1 filter length", 1),
        ("S X Q21 reduce", 1),
        ("W while drop", 0),
        ("U until drop", 0),
        ("L loop drop", 0),
        ("P loop-once", 0),
    ]
]

FAILING = apart('0 /i  5 throw  0 swap nth  "a" +  t +  f length  0 mod  "no" throw')
TELLING = apart('"x" print  dup .  readln .  readln drop  readln print  nl  "-" write  readln string>number .  readln [ print ] [ "none" print ] if*')
SEQUENCES = apart('{ 1 2 }  { 3 }  { }  2 <iota>  1 <iota>  "a"  { 5 4 3 }  { 1 2 } [ 1 + ] map  { 1 2 } reverse')


class Looper(Weaver):
    """Makes texts with loops that are accepted and run. `fails` and `tells` are the shares of items that may fail, and that read or write."""

    names = list("abcdxyqn")
    input_names = list("abcdxyqn")

    def __init__(self, chance, own_words, fails=0.02, tells=0.06):
        super().__init__(chance)
        self.own_words = own_words
        self.fails = fails
        self.tells = tells
        self.most_items = chance.choice([6, 12, 12, 25, 60])
        self.loops = 0
        self.in_method = False

    def item(self, stack, depth):
        """One item or a few that belong together, on values of these sorts."""
        chance = self.chance
        if happens(chance, self.fails) and stack[-1:] == [NUMBER]:
            return self.failing(stack)
        if happens(chance, self.tells) and stack[-1:] == [NUMBER]:
            return chance.choice(TELLING).split(" ")
        if self.in_method and happens(chance, 0.1) and stack[-1:] == [NUMBER]:
            return ["call-next-method"]
        makes = [self.number, self.named, self.compute, self.compute, self.move, self.bind, self.apply, self.hole, self.use]
        if depth:
            makes += [self.push_quotation, self.push_fry, self.choose, self.cases, *[self.turn] * 8, self.kept_below]
        for _ in range(20):
            tokens = chance.choice(makes)(stack, depth)
            if tokens:
                return tokens
        return self.number(stack, depth)

    def inside(self, inputs, outputs, depth, named=()):
        """The items of a quotation that takes so many integers and leaves so many. The last one may be a loop."""
        tokens = super().inside(inputs, outputs, depth, named)
        if happens(self.chance, 0.3) and self.size < self.most_items:
            tokens += self.last_turn(outputs, depth - 1)
        return tokens

    def last_turn(self, outputs, depth):
        """A use of a row word behind which there are as many integers as before, or nothing."""
        for _ in range(5):
            stack = [NUMBER] * outputs
            tokens = self.turn(stack, depth)
            if len(stack) == outputs:
                return tokens
        return []

    def ending(self, name):
        """The definition of an ordinary or an expanded word whose last item is a loop."""
        self.scope, self.binds = [], False
        inputs = [NUMBER] * self.chance.choice([0, 1, 2])
        stack = list(inputs)
        body = self.text(stack, self.chance.choice([0, 1, 2]), 2) + self.settled(stack, 1) + self.last_turn(1, 3)
        self.words.append((name, inputs, [NUMBER]))
        return f": {name} ( {' '.join('ab'[: len(inputs)])} -- x ) {' '.join(body)} ; {self.chance.choice(['', '', 'inline'])}"

    def failing(self, stack):
        """An item that fails, or may fail, on the integer on top, in the branch of an `if` or not."""
        stack.pop()
        stack.append(NUMBER)
        text = self.chance.choice(FAILING)
        bounded = {"throw": f"dup {self.chance.randint(-2, 6)} = [ {text} ] when", "length": f"drop {text}"}.get(text.split(" ")[-1])
        if bounded:
            return bounded.split(" ")
        if happens(self.chance, 0.5):
            return f"dup {self.chance.randint(-2, 6)} > [ {text} ] when".split(" ")
        return text.split(" ")

    def row(self, stack):
        """How many of the integers on top the callables that are handed to a loop may change."""
        count = 0
        while count < 2 and count < len(stack) and stack[len(stack) - 1 - count] == NUMBER:
            count += 1
        return self.chance.randint(0, count)

    def turns(self):
        """A number of turns."""
        return self.chance.choice(["0", "1", "1", "2", "2", "2", "3"])

    def turn(self, stack, depth):
        """A use of a row word."""
        if self.loops == 3 or not depth:
            return []
        words = self.own_words if self.own_words and happens(self.chance, 0.6) else OF_PRELUDE
        word = self.chance.choice(words)
        row = self.row(stack)
        self.loops += 1
        tokens = [token for part in word.use.split(" ") for token in self.part(part, row, depth)]
        self.loops -= 1
        if word.left < 0 and row == 0:
            return []
        if happens(self.chance, 0.04) and tokens[-1][0].islower() and tokens[-1] not in ("drop", "length", "sum", "each"):
            tokens[-1:] = ["\\", tokens[-1], "execute"]
        stack += [NUMBER] * max(0, word.left)
        return tokens

    def part(self, part, row, depth):
        """What stands for a part of a use."""
        kind, digits = part[0], part[1:]
        handed = int(digits[0]) if digits[:1].isdigit() else 0
        left = int(digits[1]) if digits[1:].isdigit() else 0
        if part == "N":
            return [self.turns()]
        if part == "X":
            return self.number([])
        if part == "S":
            return self.chance.choice(SEQUENCES).split(" ")
        if part == "V":
            return self.callable(*self.chance.choice([(0, 1), (1, 1), (2, 1), (0, 0)]), depth)
        if part == "W":
            return [self.turns(), "[", *self.counting(row, depth, 0.3), "dup", "0", ">", "]", *self.body(row, depth)]
        if part == "U":
            return [self.turns(), "[", *self.counting(row, depth, 0.3), "dup", "0", "=", "]", *self.body(row, depth)]
        if part == "L":
            return [self.turns(), "[", *self.counting(row, depth, 0.9), "1", "-", "dup", "0", ">", "]"]
        if part == "E":
            return ["[", *self.inside(0, 0, depth), "5", "throw", "]"]
        if kind == "Q":
            return self.callable(row + handed, row + left, depth)
        if kind == "F":
            return self.callable(handed, left, depth)
        if kind == "P" and digits:
            return self.testing(row + handed, row + handed, depth)
        if part == "P":
            return [*self.quotation(row, row, depth)[:-1], "f", "]"]
        return ["loop"] if part == "loop-once" else [part]

    def counting(self, row, depth, share):
        """A callable that runs on the row below a counter, or nothing."""
        return [*self.callable(row, row, depth), "dip"] if happens(self.chance, share) else []

    def body(self, row, depth):
        """The body of a loop that counts down."""
        if happens(self.chance, 0.2):
            return [*self.callable(row, row, depth), "[", "dip", "1", "-", "]", "curry"]
        return ["[", "1", "-", *self.counting(row, depth, 0.9), "]"]

    def testing(self, inputs, outputs, depth):
        """A callable that leaves a truth value in place of its top integer."""
        test = [str(self.chance.randint(-1, 6)), self.chance.choice(["<", ">", "="])]
        if happens(self.chance, 0.5):
            return [*self.callable(inputs, outputs, depth), "[", *test, "]", "compose"]
        return [*self.quotation(inputs, outputs, depth)[:-1], *test, "]"]

    def fried(self, inputs, outputs, depth):
        """A fry of an integer."""
        self.holes.append([NUMBER])
        body = self.inside(inputs, 0, depth)
        filled = []
        while self.holes[-1]:
            body += self.hole(filled, 0)
        body += self.settled(filled, outputs)
        self.holes.pop()
        return [*self.number([]), "'[", *body, "]"]

    def callable(self, inputs, outputs, depth):
        """What pushes a callable that takes so many integers and leaves so many, made in one way or another."""
        chance = self.chance
        share = chance.random()
        if share < 0.5 or not depth:
            return self.quotation(inputs, outputs, max(depth, 1))
        if share < 0.57:
            return [*self.number([]), *self.quotation(inputs + 1, outputs, depth), "curry"]
        if share < 0.64:
            between = chance.choice([0, 1, 2])
            return [*self.callable(inputs, between, depth - 1), *self.callable(between, outputs, depth - 1), "compose"]
        if share < 0.68:
            return [*self.callable(outputs, outputs, depth - 1), *self.callable(inputs, outputs, depth - 1), "prepose"]
        if share < 0.76:
            return self.fried(inputs, outputs, depth)
        if share < 0.80:
            return ["[", *self.callable(inputs, outputs, depth - 1), "]", "call"]
        made = self.quotation(inputs, outputs, depth)
        if share < 0.88:
            return [*made, *chance.choice(["dup drop", "dup .", "dup 1array drop", "dup [ drop ] call", "dup 5 swap curry drop", "same"]).split(" ")]
        if share < 0.92 and self.binds:
            name = chance.choice(self.names)
            self.scope.append((name, (inputs, outputs)))
            return [*made, ":>", name, name]
        if share < 0.96:
            return [*made, "5", "3", chance.choice("<>"), *chance.choice(["[ 1 drop ] [ ] if", "[ dup drop ] when", "[ ] [ dup . ] if"]).split(" ")]
        return ["[", *made, "call", "]"]

    def kept_below(self, stack, depth):
        """A callable that stays on the row while a loop turns, which may call it, and is called behind it."""
        inputs = self.row(stack)
        made = self.callable(inputs, inputs, depth)
        again = self.chance.choice(apart("[ call ] keep  [ ] dip  dup drop  [ 1 ] drop  dup dip  dup [ call ] dip  dup .  swap dup drop swap"))
        known = apart("{} [ {} ] times  {} [ {} ] times  {} [ [ {} ] dip 1 - dup 0 > ] loop drop  {} <iota> [ drop {} ] each")
        known += [f"{{}} [ {{}} ] {name}" for name in ("turned", "forked", "behind") if BY_NAME[name] in self.own_words]
        known += ["{} down {}"] if BY_NAME["down"] in self.own_words else []
        loop = self.chance.choice(known).format(self.turns(), again).split(" ")
        return [*made, *loop, "call"]

    def method(self, number):
        """A generic word with a method on integers that may have loops, and one on other values."""
        self.in_method = True
        body = self.inside(1, 1, 3)
        self.in_method = False
        self.words.append((f"g{number}", [NUMBER], [NUMBER]))
        return f"GENERIC: g{number} ( x -- y ) M: object g{number} drop 0 ; M: integer g{number} {' '.join(body)} ;"

    def program(self):
        """A program: some definitions, and items whose values are printed."""
        chance = self.chance
        texts = [": same ( q -- q ) ; inline", *[word.text for word in self.own_words]]
        for number in range(1, chance.choice([1, 1, 1, 2, 3])):
            self.size = 0
            share = chance.random()
            name = f"w{number}"
            texts.append(self.method(number) if share < 0.25 else self.ending(name) if share < 0.6 else self.definition(name))
        stack, self.size = [], 0
        tokens = []
        while not tokens or happens(chance, 0.4):
            tokens += self.text(stack, chance.choice([1, 2, 3]), chance.choice([1, 2, 3]))
            tokens += self.turn(stack, chance.choice([1, 2, 3]))
        return [*texts, *[" ".join(tokens)], ". " * len(stack)]


LOOP_HEAD = HEAD.replace("USING:", "USING: math.parser strings")


def with_those_needed(words):
    """Words, each behind those that it needs."""
    names = []
    for word in words:
        names += [name for name in (*word.needs, word.name()) if name not in names]
    return [BY_NAME[name] for name in names]


def loop_case(chance, looper):
    """The run of a program that this makes, with an input."""
    text = " ".join([LOOP_HEAD, *looper.program()])
    return within(Case(["run", FILE], {FILE: text.encode()}, some_input(chance, 0.005)), MOST_TICKS)


def loops(chance):
    """Aims at loops of the prelude in one another, at callables of all sorts, in words, methods and the top-level phrase."""
    return loop_case(chance, Looper(chance, []))


def own_loops(chance):
    """Aims at row words of a program's own, which go back to their beginning or call themselves in their midst, in one another and in the
    prelude's loops."""
    words = [chance.choice(chance.choice([GOING_BACK, IN_THE_MIDST, HANDING_ON])) for _ in range(chance.choice([1, 1, 2, 3]))]
    return loop_case(chance, Looper(chance, with_those_needed(words)))


def carried_callables(chance):
    """Aims at callables that a row word hands on to itself: in other places each turn, longer each turn, or in the place of others."""
    words = chance.sample(CARRYING, chance.choice([1, 1, 2])) + ([chance.choice(OWN_WORDS)] if happens(chance, 0.3) else [])
    return loop_case(chance, Looper(chance, with_those_needed(words), tells=0.15))


def failing_loops(chance):
    """Aims at run errors, reads and writes in the midst of turns."""
    words = chance.sample(OWN_WORDS, chance.choice([0, 1, 1, 2]))
    return loop_case(chance, Looper(chance, with_those_needed(words), chance.choice([0.05, 0.1]), chance.choice([0.1, 0.25])))


LOOP_TOKENS = """
    dup drop swap over rot -rot pick nip 2drop 2dup call dip keep 2dip 3dip if when times each map loop while until compose curry + - 0 1 2 f t
    n p q dup drop swap over call dip
    """.split()


# What stays where it is, so that a text is read at all.
BRACKETS = ": :: ; [ ] [| '[ | { } ( ) -- inline recursive GENERIC: M: _ @ :> \\".split()


def with_tokens_moved(chance, text):
    """A text in which a token of a loop is taken away, doubled, put in or replaced, or two that stand near one another are exchanged."""
    tokens = text.split(" ")
    places = [place for place, token in enumerate(tokens[:-1]) if place > len(LOOP_HEAD.split(" ")) and token not in BRACKETS]
    place = chance.choice(places)
    share = chance.random()
    if share < 0.2:
        tokens.pop(place)
    elif share < 0.3:
        tokens.insert(place, tokens[place])
    elif share < 0.55:
        tokens.insert(place, chance.choice(LOOP_TOKENS))
    elif share < 0.8:
        tokens[place] = chance.choice(LOOP_TOKENS)
    else:
        other = chance.choice(places[places.index(place) :][:5])
        tokens[place], tokens[other] = tokens[other], tokens[place]
    return " ".join(tokens)


def loops_changed(chance):
    """Aims at what is nearly one of these programs: one with a token or two taken away, doubled, replaced or exchanged."""
    made = chance.choice([loops, own_loops, own_loops, carried_callables])(chance)
    text = made.files[FILE].decode("latin-1")
    for _ in range(chance.choice([1, 1, 2])):
        text = with_a_token_changed(chance, text) if happens(chance, 0.1) else with_tokens_moved(chance, text)
    return within(Case(["run", FILE], {FILE: text.encode("latin-1", "replace")}, made.given), 5_000)


NEEDED = ["\\", "execute", "call(", "::", "'[", "{", "sequence-words", "prelude", "IN:", "cond", "TUPLE:", "built-in-classes", "readln"]

# Each kind, how many shares of the time it has, and what it needs.
LOOP_KINDS = [
    (loops, 6, NEEDED),
    (own_loops, 8, NEEDED),
    (carried_callables, 6, NEEDED),
    (failing_loops, 4, NEEDED),
    (loops_changed, 4, NEEDED),
]
