"""The kinds of cases about input: programs that read lines, and inputs of all sorts."""

import re

import model
from kinds import FILE, HEAD, Case, apart, guided, happens, row_words, running, within

# Lines, each without its newline.
LINES = [
    b"", b"", b"a", b"b", b"hello", b"1", b"-2", b"30", b"0x1f", b"1,000", b"x1", b" 7", b"7 ", b"a b\tc", b"\r", b"a\r", b'"', b"\\n",
    b"\0", b"\x0b\x0c", "\u00e9".encode(), "\u20ac!".encode(), "\U0001f600".encode(), "\u2028\u0085".encode(), b"\xef\xbb\xbfa",
    str(model.GREATEST_INTEGER).encode(), str(model.GREATEST_INTEGER + 1).encode(), b"f", b"t", b"[ ... ]",
]

# Lines that are no text.
NO_TEXTS = [b"\xff", b"a\x80", b"\xc3", b"\xc0\x80", b"\xed\xa0\x80", b"\xf4\x90\x80\x80", b"\xe2\x82", b"\xf0\x9f\x98", b"\xfe\xff"]


def some_input(chance, faulty=0.04):
    """An input of a few lines, of which this share is no text; the last one may have no newline."""
    lines = [chance.choice(NO_TEXTS if happens(chance, faulty) else LINES) for _ in range(chance.choice([0, 1, 2, 3, 3, 5, 9, 30]))]
    given = b"".join(line + b"\n" for line in lines)
    return given[:-1] if happens(chance, 0.4) else given


def reading(chance):
    """Aims at programs of other kinds in which some integers and strings are lines of the input."""
    source = chance.choice([running, guided, row_words])(chance).decode("latin-1")
    share = chance.choice([0.05, 0.2, 0.6])
    replaced = re.sub(r'(?<= )(-?[0-9]+|"[a-z ]*")(?= )', lambda found: "readln" if happens(chance, share) else found[0], source)
    return Case(["run", FILE], {FILE: replaced.encode("latin-1")}, some_input(chance))


# What is done with a line, which is taken. The line may be `f` where a program asks for more than there are.
DONE_WITH = apart(
    """
    .  print  drop  length .  string>number .  dup . print  dup length . drop  write nl  [ 1 + . ] each  reverse .  "b" append .  "1" = .
    string>number [ 1 + . ] [ "none" print ] if*  dup empty? [ drop "-" print ] [ print ] if  1array .  readln 2array .  readln = .  readln eq? .
    dup "a" = [ drop readln . ] [ . ] if  0 swap nth .  5 throw  [ . ] curry call  >array .  dup append .  string? .  { 1 } swap suffix .
    """
)

LOOPS = apart(
    """
    [ readln dup ] [ BODY ] while drop  [ readln dup ] [ BODY ] while .  [ readln dup not ] [ BODY ] until drop
    [ readln dup [ BODY t ] [ drop f ] if ] loop  [ readln [ BODY t ] [ f ] if* ] loop  go  3 [ readln BODY ] times
    3 <iota> [ . readln BODY ] each  2 <iota> [ drop readln ] map .  0 [ readln dup ] [ drop 1 + ] while drop .
    { } [ readln dup ] [ suffix ] while drop .  { } [ readln dup ] [ suffix ] while drop [ BODY ] each  readln BODY  readln readln = .
    1 [ readln dup ] [ over . BODY 1 + ] while drop .  readln readln [ BODY ] bi@  readln [ BODY ] keep print
    "" [ readln dup ] [ append ] while drop .  0 [ readln dup ] [ string>number [ + ] [ ] if* ] while drop .
    """
)


def line_loops(chance):
    """Aims at loops over lines, with all sorts of things done with each."""
    bodies = [chance.choice(DONE_WITH) for _ in range(3)]
    go = f": go ( -- ) readln dup [ {chance.choice(bodies)} go ] [ drop ] if ;"
    texts = [chance.choice(LOOPS).replace("BODY", chance.choice(bodies)) for _ in range(chance.choice([1, 1, 2, 3]))]
    source = f"{HEAD.replace('USING:', 'USING: strings')} {go} {' '.join(texts)}"
    return within(Case(["run", FILE], {FILE: source.encode()}, some_input(chance)), 20_000)


READERS = apart(
    """
    readln  \\ readln execute  \\ readln execute( -- x )  [ readln ] call  [ readln ] call( -- x )  { readln } first execute( -- x )
    { [ readln ] } first call( -- x )  one  \\ one execute  "" [ drop ] [ readln ] compose call( x -- y )  1 [ drop readln ] curry call( -- x )
    here  t [ readln ] [ f ] if  [ readln ] [ ] compose call  1 [ readln ] dip drop  readln drop readln  '[ readln ] call
    readln '[ _ ] call  \\ readln [ execute ] curry call( -- x )
    """
)


def line_values(chance):
    """Aims at `readln` where it is reached in other ways than by its name."""
    readers = [chance.choice(READERS) for _ in range(chance.choice([1, 2, 4]))]
    words = ": one ( -- x ) readln ; : here ( -- x ) readln ; inline"
    shown = " ".join(f"{reader} {chance.choice(['.', '.', '.', 'print', 'string>number .', 'drop', ''])}" for reader in readers)
    command = ["run", "--stack", FILE] if happens(chance, 0.5) else ["run", FILE]
    return Case(command, {FILE: f"{HEAD} {words} {shown}".encode()}, some_input(chance))


def line_noise(chance):
    """Aims at the tests of a line: bytes at random, whose lines are told by their lengths and texts."""
    count = chance.choice([1, 2, 3, 8, 20])
    alphabet = chance.choice([list(range(256)), [0x61, 0x0A, 0xC3, 0xA9, 0xE2, 0x82, 0xAC], [0xF0, 0x9F, 0x98, 0x80, 0x0A], [0x0D, 0x0A, 0x61]])
    given = bytes(chance.choice(alphabet) for _ in range(count))
    source = f"{HEAD} [ readln dup ] [ dup length . . ] while ."
    return Case(["run", FILE], {FILE: source.encode()}, given)


def line_limits(chance):
    """Aims at the limits of a line: 4,000,000 bytes and 1,000,000 characters."""
    size = chance.choice([1, 1, 2, 3, 4])
    character = {1: "a", 2: "\u00e9", 3: "\u20ac", 4: "\U0001f600"}[size].encode()
    most = chance.choice([model.MOST_CHARACTERS, model.MOST_LINE_BYTES // size]) + chance.choice([-1, 0, 0, 1, 1, 2])
    line = bytearray(character * most)
    if happens(chance, 0.4):
        line[chance.choice([0, -1, chance.randrange(len(line))])] = chance.choice([0xFF, 0x80, 0x0A, 0x61])
    line += chance.choice([b"", b"", b"a", b"\xff", b"aa"])
    given = chance.choice([b"", b"a\n"]) + bytes(line) + chance.choice([b"", b"\n", b"\nrest", b"\n\nrest\n"])
    source = f"{HEAD} {chance.choice(['readln length .', 'readln drop readln length .', '[ readln dup ] [ length . ] while .'])}"
    return Case(["run", FILE], {FILE: source.encode()}, given)


def unread(chance):
    """Aims at inputs that nobody asks for: programs that are refused, checked or end before they read."""
    source = f"{HEAD} {chance.choice(['1 .', 'readln .', '1 0 /i readln .', '+ readln', '] readln', 'foo readln', '5 throw readln'])}"
    words = chance.choice([["run", FILE], ["check", FILE], ["run", "--steps", "0", FILE], ["run", "--steps", "1", FILE], ["run"], ["run", "none"]])
    return Case(words, {FILE: source.encode()}, some_input(chance, 0.3))


NEEDED = ["readln", "\\", "execute", "call(", "'[", "{", "sequence-words", "prelude", "built-in-classes", "--stack", "--steps"]

# Each kind, how many shares of the time it has, and what it needs.
INPUT_KINDS = [
    (reading, 4, NEEDED),
    (line_loops, 4, NEEDED),
    (line_values, 2, NEEDED),
    (line_noise, 2, NEEDED),
    (line_limits, 1, NEEDED),
    (unread, 1, NEEDED),
]
