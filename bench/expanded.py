#!/usr/bin/env python3
"""Looks at the code that factorc makes of words whose quotations are applied at once, and of loops.

    python3 bench/expanded.py [PROGRAM]

PROGRAM is the built program, by default crates/factorc/out/factorc. Each word below is built into an image, and its code is that from its
entry to the next entry of a word or a method, or to the end; that of the top-level phrase is from the start to the end. Where the word is
direct, which is that each of its quotations stands directly before the `call`, `dip`, `if`, `loop`, `while` or `until` that takes it, its code
has none of the instructions `quot`, `fry`, `call`, `dip` and `if`, no `callw` of an inline word, and each `jump`, `branch` and `callp` in it goes
to an instruction of the same code. The others have quotations that go through words and shuffles, or are made; what is in their code is told
beside them. Among the direct words are long ones, loops in sixty loops, and loops in code that no run comes to, as deep as the grammar allows.

A loop is a use of a row word that calls itself. At quotations that are known there it has code of its own, to the beginning of which a `callp`
that is a tail call goes back, and calls no row word; the code ends with such a way back for each loop whose own call comes last. At a
quotation that is made the row word is called by `callw`.

Sixty words, each of which runs the one before twice, are compiled within a second, and so are sixty loops in one another, and thirty uses in
one another of row words that run their quotation twice. In no image of these, or of the examples, does a call leave a return entry where a
`ret` comes next; and 2,000 tail calls have few return entries at any moment. The script ends with status 1 where that isn't so.
"""
import pathlib
import resource
import subprocess
import sys
import tempfile

import image_model
import library
import speed

HEAD = "USING: kernel math prettyprint sequences combinators ; "
NAME_OF = {code: name for name, code in image_model.CODES.items()}
CALLING = {name for name, operands in image_model.INSTRUCTIONS if operands.endswith("t")}
INLINE = {"loop", "while", "until", "2dip", "keep", "(each-integer)", "times", "each"}
APPLY = {"quot", "fry", "call", "dip", "if"}

# A word, the instructions that its code must not have, and those that it must have.
WORDS = [
    (": w ( ? -- x ) [ 1 ] [ 2 ] if ; t w .", APPLY, {"branch"}),
    (": w ( x y -- y x ) [ 1 + ] dip swap ; 1 2 w . .", APPLY, {"hold", "back"}),
    (": w ( x -- y ) [ 1 + ] call [ 2 * ] call ; 1 w .", APPLY, set()),
    (": w ( x ? -- y ) [ dup 0 < [ drop 0 ] [ [ 1 + ] call ] if ] [ drop 2 ] if ; 5 t w .", APPLY, {"branch"}),
    (": w ( x ? -- y ) [ 1 + ] [ 2 + ] if 3 * ; 5 t w .", APPLY, {"branch", "jump"}),
    (": w ( x -- y ) [ 1 + ] [ 2 * ] bi + ; 5 w .", APPLY, set()),
    (": w ( x y -- z ) [ + ] curry call ; 1 2 w .", APPLY, {"bind", "local"}),
    (": w ( x -- y ) [ 1 + ] [ 2 * ] compose call ; 5 w .", APPLY, set()),
    (":: w ( a b -- c ) a b > [ a ] [ b ] if ; 5 6 w .", APPLY, {"branch", "local"}),
    (": w ( x -- y ) { { [ dup 1 < ] [ drop 0 ] } { [ dup 2 < ] [ drop 10 ] } [ drop 20 ] } cond ; 1 w .", APPLY, {"branch"}),
    (": w ( -- q n ) [ 1 ] 5 ; w . drop", {"call", "dip", "if"}, {"quot"}),
    # longer than what one word may have of code in which values are followed
    (": w ( x -- y ) " + "dup 0 < [ 1 + ] [ 1 - ] if " * 20_000 + "; 5 w .", APPLY, {"branch", "jump"}),
    (":: w ( x -- y ) x " + "dup x < [ 1 + :> a a x + ] [ [ 1 - ] call ] if " * 12_000 + "; 5 w .", APPLY, {"branch", "jump", "bind", "unbind"}),
    (": w ( x y -- z ) " + "[ dup 0 < [ 1 + ] [ 1 - ] if ] dip " * 12_000 + "+ ; 5 6 w .", APPLY, {"branch", "jump", "hold", "back"}),
]



def nested(count, before, inner, behind):
    """A phrase in so many others."""
    return f"{before} " * count + inner + f" {behind}" * count


WHILE, UNTIL, LOOP = ("[ dup 0 > ] [ 1 -", "] while"), ("[ dup 1 < ] [ 1 -", "] until"), ("[ 1 -", "dup 0 > ] loop")
WORDS += [
    (": w ( x -- y ) " + "1 + [ dup 9 > ] [ 1 - ] while " * 20_000 + "; 3 w .", APPLY, {"callp", "branch"}),
    (": w ( x -- y ) " + "1 + dup 0 > [ [ dup 9 < ] [ 1 + ] until ] [ [ 1 + dup 5 < ] loop ] if " * 8_000 + "; 3 w .", APPLY, {"callp", "branch"}),
    (":: w ( x -- y ) x " + "[ dup 9 > ] [ 1 - :> a a ] while " * 12_000 + "; 3 w .", APPLY, {"callp", "bind"}),
    (": w ( x y -- z ) [ [ dup 9 > ] [ [ 1 + ] call 2 - ] while ] dip + ; 30 4 w .", APPLY, {"callp", "hold", "back"}),
    (": w ( x ? -- y ) [ [ dup 9 > ] [ 1 - ] while ] [ [ 1 + dup 5 < ] loop ] if ; 30 t w .", APPLY, {"callp", "branch"}),
]
WORDS += [(f": w ( x -- y ) {nested(count, before, '2 -', behind)} ; 3 w .", APPLY, {"callp"}) for before, behind in (WHILE, UNTIL, LOOP) for count in (30, 60)]
WORDS += [(f": w ( x -- * ) throw {nested(64, before, '2 -', behind)} ; 3 drop", APPLY, {"callp"}) for before, behind in (WHILE, UNTIL, LOOP)]

TURNED = ": turned ( ..a n q: ( ..a -- ..a ) -- ..a ) over 0 > [ dup 2dip [ 1 - ] dip turned ] [ 2drop ] if ; inline recursive "
COUNTED = ": counted ( ..a n q: ( ..a -- ..a ) -- ..a m ) over 0 > [ dup 2dip [ 1 - ] dip counted 1 + ] [ 2drop 0 ] if ; inline recursive "
BOTH = (
    ": both ( ..a n p: ( ..a -- ..a ) q: ( ..a -- ..a ) -- ..a ) "
    "pick 0 > [ dup 3dip over 3dip [ 1 - ] 2dip both ] [ 3drop ] if ; inline recursive "
)
SWAPPED = ": swapped ( n p q -- ) rot dup 0 > [ 1 - -rot swap swapped ] [ 3drop ] if ; inline recursive "
NAMED = ":: named ( ..a n q: ( ..a -- ..a ) -- ..a ) n 0 > [ q call n 1 - q named ] [ ] if ; inline recursive "

# Code with loops at quotations that are known: how many ways back it has that are tail calls, and how many that are none.
LOOPS = [
    ("{ 1 2 3 } [ . ] each", None, 1, 0),
    (": w ( n -- n ) [ 1 - dup 0 > ] loop ; 3 w .", "w", 1, 0),
    (": w ( n -- n ) [ dup 0 > ] [ 1 - ] while ; 3 w .", "w", 1, 0),
    (": w ( n -- n ) [ dup 0 = ] [ 1 - ] until ; 3 w .", "w", 1, 0),
    (": w ( x -- y ) 5 [ 2 * ] times ; 3 w .", "w", 1, 0),
    (": w ( seq -- seq ) [ 2 * ] map ; { 1 2 } w .", "w", 1, 0),
    (": w ( seq -- seq ) [ 2 > ] filter ; { 1 2 } w .", "w", 1, 0),
    (": w ( seq -- n ) 0 [ + ] reduce ; { 1 2 } w .", "w", 1, 0),
    (":: w ( seq n -- seq ) seq [ n * ] map ; { 1 2 } 3 w .", "w", 1, 0),
    (": w ( seq -- seq ) [ 2 * ] map [ 1 + ] map ; { 1 2 } w .", "w", 2, 0),
    (": w ( x -- y ) 5 [ 4 [ 3 [ 1 + ] times ] times ] times ; 3 w .", "w", 3, 0),
    (": w ( x ? -- y ) [ 5 [ 1 + ] times ] [ 4 [ 2 * ] times ] if 3 + ; 3 t w .", "w", 2, 0),
    (TURNED + ": w ( x -- y ) 5 [ 2 * ] turned ; 3 w .", "w", 1, 0),
    (TURNED + ": w ( x n m -- y ) '[ _ * ] turned ; 3 4 5 w .", "w", 1, 0),
    (TURNED + ": w ( x y -- y x ) [ 5 [ 2 * ] turned ] dip swap ; 3 4 w . .", "w", 1, 0),
    (BOTH + ": w ( x -- y ) 5 [ 2 * ] [ 1 + ] both ; 3 w .", "w", 1, 0),
    (SWAPPED + ": w ( -- ) 5 [ 2 * ] [ 1 + ] swapped ; w", "w", 1, 0),
    (COUNTED + ": w ( x -- y n ) 5 [ 2 * ] counted ; 3 w . .", "w", 0, 1),
]

# Words in whose code a row word is called, since a quotation is made: the names of those that are called.
CALLS = [
    (": w ( x n -- y q ) [ 2 * ] dup [ times ] dip ; 3 4 w drop .", {"(each-integer)"}),
    (": w ( x n -- y ) [ 2 * ] dup . times ; 3 4 w .", {"(each-integer)"}),
    (TURNED + ": w ( x n -- y ) [ 2 * ] dup . turned ; 3 4 w .", {"turned"}),
    (TURNED + ": w ( x n m k -- y ) '[ _ * _ + ] turned ; 3 4 5 6 w .", {"turned"}),
    (NAMED + ": w ( x n -- y ) [ 2 * ] named ; 3 4 w .", {"named"}),
]


def image_of(program, folder, source):
    """The image of this source."""
    (folder / "a").write_text(HEAD + source + "\n")
    subprocess.run([program, "build", "a", "-o", "i"], cwd=folder, check=True)
    return image_model.decode((folder / "i").read_bytes())


def code_of(program, folder, source, word):
    """The instructions of a word of this source, or those of its top-level phrase where it is None, with their places; and the names of the
    words that they call."""
    image = image_of(program, folder, source)
    entries = {row[2][1]: row for row in image.words if isinstance(row[2], tuple) and row[2][0] == image_model.CODE}
    if word is None:
        entry, later = image.start, []
    else:
        entry = next(at for at, row in entries.items() if image.texts[row[1]] == word)
        later = [at for at in entries if at > entry]
    code = list(enumerate(image.code))[entry : min(later, default=len(image.code))]
    return code, {image.texts[image.words[instr[1]][1]] for _, instr in code if NAME_OF[instr[0]] == "callw"}


def leaving(code):
    """What in this code goes to an instruction of other code."""
    places = {place for place, _ in code}
    return {NAME_OF[instr[0]] for _, instr in code if NAME_OF[instr[0]] in ("jump", "branch", "callp") and instr[1] not in places}


def ways_back(code, tail):
    """How many places of this code are gone back to from behind, by tail calls or by others."""
    return len({instr[1] for place, instr in code if NAME_OF[instr[0]] == "callp" and instr[1] <= place and bool(instr[2]) == tail})


def next_place(code, place):
    """The place of the instruction that comes next from a place on: a `jump` is followed; `unbind`, a `tick` of nothing, and a `hold` with the
    `back` that comes next behind it are passed. None where that never ends."""
    for _ in range(len(code)):
        if place >= len(code):
            return None
        name, *operands = NAME_OF[code[place][0]], *code[place][1:]
        if name == "jump":
            place = operands[0]
        elif name == "unbind" or (name == "tick" and operands[0] == 0):
            place += 1
        elif name == "hold":
            behind = next_place(code, place + 1)
            if behind is None or NAME_OF[code[behind][0]] != "back":
                return place
            place = behind + 1
        else:
            return place
    return None


def late_calls(image):
    """The places of calls of an image that leave a return entry though a `ret` comes next."""
    for place, instr in enumerate(image.code):
        if NAME_OF[instr[0]] in CALLING and not instr[-1]:
            behind = next_place(image.code, place + 1)
            if behind is not None and NAME_OF[image.code[behind][0]] == "ret":
                yield place


def tell(source, code, wrong):
    """Tells of a word whether its code is as it is to be, and whether it isn't."""
    print("WRONG" if wrong else "as it is to be", len(code), "instructions:", source[:150], *sorted(map(str, wrong)))
    return bool(wrong)


def wrong_words(program, folder):
    """Whether a word has other code than it is to have."""
    failed = False
    for source, without, having in WORDS:
        code, called = code_of(program, folder, source, "w")
        names = {NAME_OF[instr[0]] for _, instr in code}
        failed |= tell(source, code, (names & without) | (having - names) | (called & INLINE) | leaving(code))
    for source, word, last, others in LOOPS:
        code, called = code_of(program, folder, source, word)
        names = {NAME_OF[instr[0]] for _, instr in code}
        wrong = (names & APPLY) | (called - {"w"}) | leaving(code)
        wrong |= {f"{ways_back(code, True)} ways back"} if ways_back(code, True) != last else set()
        wrong |= {f"{ways_back(code, False)} calls back"} if ways_back(code, False) != others else set()
        failed |= tell(source, code, wrong)
    for source, calls in CALLS:
        code, called = code_of(program, folder, source, "w")
        failed |= tell(source, code, leaving(code) | (calls ^ called))
    return failed


def long_ones():
    """Sources that grow when they are expanded, each with what is told of it, and the most instructions that it may have."""
    steps = ": w0 ( x -- y ) 1 + ; inline " + " ".join(f": w{k} ( x -- y ) [ w{k - 1} ] [ w{k - 1} ] bi + ; inline" for k in range(1, 9))
    nested = ": a0 ( x -- y ) 1 + ; " + " ".join(f": a{k} ( x -- y ) [ a{k - 1} ] [ 1 + ] bi + ;" for k in range(1, 61))
    yield "twice in one another", steps + " 1 w8 .", 100_000
    yield "sixty uses of `bi`", nested + " 1 a60 .", 100_000
    for count in (4, 60):
        yield f"{count} `times` in one another", f": w ( x -- y ) {'1 [ ' * count} 1 + {'] times ' * count} ; 0 w .", 10_000
    uses = ("( ..a q: ( ..a -- ..a ) -- ..a ) dup dip call ; inline", "")
    turns = ("( ..a n q: ( ..a -- ..a ) -- ..a ) over 0 > [ dup 2dip dup 2dip [ 1 - ] dip twice ] [ 2drop ] if ; inline recursive", "1 ")
    for text, count in (uses, turns):
        source = f": twice {text} : w ( x -- y ) {f'{count}[ ' * 30} 1 + {'] twice ' * 30} ; 0 drop"
        yield f"thirty uses in one another of a row word that runs its quotation twice{', and calls itself' if count else ''}", source, 200_000


def has_late_calls(program, folder):
    """Whether a call of any image above, or of one of the examples, leaves a return entry though a `ret` comes next."""
    sources = [row[0] for rows in (WORDS, LOOPS, CALLS) for row in rows] + [source for _, source, _ in long_ones()]
    images = [(source, image_of(program, folder, source)) for source in sources]
    for path in sorted((pathlib.Path(__file__).resolve().parent.parent / "examples").glob("*.factor")):
        needed = [str(library.ROOT / f"lib/{name}.factor") for name in library.needs_of(path)]
        done = subprocess.run([program, "build", *needed, str(path), "-o", "i"], cwd=folder, capture_output=True)
        if done.returncode == 0:
            images.append((path.name, image_model.decode((folder / "i").read_bytes())))
    found = [(source, place) for source, image in images for place in late_calls(image)]
    print(f"{len(images)} images, of whose calls {len(found)} leave a return entry before a `ret`", *found[:3])
    return bool(found)


def keeps_entries(program, folder):
    """Whether a program of tail calls alone has many return entries at any moment, by the model of the machine."""
    source = ": count ( n -- n ) dup 0 > [ 1 - count ] [ ] if ; 2000 count ."
    machine = Deepest(image_of(program, folder, source))
    machine.run(100_000)
    print(f"2,000 tail calls: at most {machine.deepest} return entries at once")
    return machine.deepest > 100


class Deepest(image_model.Machine):
    """A machine that tells the greatest number of return entries at any moment of its run."""

    deepest = 0

    def tick(self, count):
        self.deepest = max(self.deepest, len(self.returns))
        return super().tick(count)


def main():
    program = str(pathlib.Path(sys.argv[1] if len(sys.argv) > 1 else speed.DEFAULT).resolve())
    with tempfile.TemporaryDirectory() as name:
        folder = pathlib.Path(name)
        failed = wrong_words(program, folder)
        for about, source, most in long_ones():
            before = resource.getrusage(resource.RUSAGE_CHILDREN).ru_utime
            image = image_of(program, folder, source)
            taken = resource.getrusage(resource.RUSAGE_CHILDREN).ru_utime - before
            code, called = code_of(program, folder, source, "w") if ": w (" in source else ([], set())
            back = f", {len(code)} of them of the word, which has {ways_back(code, True)} ways back and calls {sorted(called)}" if code else ""
            print(f"{about}: {taken:.3f} s, {len(image.code)} instructions{back}")
            failed |= taken > 1.0 or len(image.code) > most
        failed |= has_late_calls(program, folder)
        failed |= keeps_entries(program, folder)
    return 1 if failed else 0


if __name__ == "__main__":
    sys.exit(main())
