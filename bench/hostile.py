#!/usr/bin/env python3
"""Gives the built factorc sources and images that are damaged, deep or long, and looks that each ends as it should, in little memory.

    python3 bench/hostile.py [PROGRAM] [--cases CASES] [--mutations N] [--model K] [--seed S] [--jobs J] [--only PART]

PROGRAM is the built program, by default crates/factorc/out/factorc, and CASES that of crates/fac_cases, by default the one beside it. The parts
are these; with `--only` one of them is done alone.

- `limits`: sources at each limit of the language and one beyond it, of each kind of bracket, name, string and number, have the status and the
  note that stand beside them here.
- `long`: sources of the greatest length, each of one token or a few again and again, or of forms each of which names the one before it, are
  checked. Each ends in one of the statuses of a source, and its note has the form that belongs to it.
- `deep`: programs whose run nests values as deep as they can be, for some up to 100,000,000 ticks, and walks or drops them, answer what stands
  beside them.
- `images`: images of a mebibyte that consist of one thing again and again, and those that claim to have more than there is, are executed and
  listed as bench/image_model.py says. bench/images.py has those that are damaged.
- `damaged`: N times, 1,000,000 by default, a source is damaged at random, and checked or run with a small budget. Each ends in one of the
  statuses of a source, with a note of its form; and each K-th, by default every 50th, is compared with bench/model.py. CASES makes these
  calls, some hundred of them in one process; J processes share them, as many as there are processors by default. The same seed S, 1 by
  default, gives the same sources.

All but the damaged ones have a stack of one mebibyte. Where a source is only checked, it may take 40 bytes of memory for each of its bytes, above
1 MiB and what an empty one takes, and an image that is executed 10, but for those of KNOWN. The script ends with status 1 where anything is
otherwise, or a run takes too long or is ended by a signal. Sources that were damaged and failed are kept in a folder, which is named.
"""

import argparse
import glob
import multiprocessing
import os
import random
import re
import sys
import tempfile
from collections import Counter

import cases
import examples
import image_model
import model
import processes
import speed
from allocations import LITTLE_STACK, Allocations
from examples import H, ends, not_expected

TOP = os.path.realpath(os.path.join(os.path.dirname(os.path.abspath(__file__)), ".."))
CASES = os.path.join(TOP, "crates", "fac_cases", "out", "fac_cases")

# How long a run may take, by the processor's time.
MOST_SECONDS = 60
MOST_BYTES_A_BYTE, MOST_BYTES_A_BYTE_OF_IMAGE = 40, 10
BASE = 1 << 20
# What takes more, and how many bytes for each of its bytes: docs/SPEED.md has what each of these comes from.
KNOWN = {
    # items, in one run
    **{about: 70 for about in ("t", "f", "<", ">", "1", "a", "*")},
    **{about: 48 for about in ("-1", "0x", "0b", "1,", "empty strings")},
    "empty quotations": 58,
    "branches": 58,
    "branches in branches": 59,
    "quotations in quotations": 62,
    "quotations with inputs": 56,
    "cases": 66,
    "cases that stay open": 55,
    "fries with a hole": 58,
    "fries with holes in fries": 49,
    "fries in fries": 50,
    # literal arrays
    "arrays of arrays": 96,
    "empty arrays": 72,
    "1,000,000 elements": 66,
    "1,000,001 elements": 46,
    "1,000,000 elements that are arrays": 72,
    # words and classes
    "makers": 65,
    "unions of themselves": 104,
    "tuple classes of one name": 97,
    "tuple classes under themselves": 73,
    "1,024 classes": 53,
    # images
    "exec of empty texts": 34,
    "exec of texts of a character": 17,
    "exec of empty arrays": 64,
    "exec of empty sets of classes": 26,
    "exec of instructions": 41,
    **{
        f"exec of {name} where list {place} has 4,294,967,295 elements": most
        for name, place, most in (
            ("zeros", 0, 34),
            ("ones", 0, 18),
            ("zeros", 1, 26),
            ("ones", 1, 86),
            ("zeros", 2, 15),
            ("ones", 2, 16),
            ("zeros", 3, 26),
            ("ones", 3, 30),
            ("zeros", 4, 16),
            ("ones", 4, 14),
            ("zeros", 6, 18),
            ("zeros", 8, 34),
            ("ones", 8, 18),
        )
    },
}
MOST_FAILURES = 20
# The room of the sinks, and the budget, of a damaged source.
ROOM, TICKS = 100_000, 500
BATCH = 200

DONE, SYNTAX, NAME, CHECKER = model.DONE, model.SYNTAX, model.NAME, model.CHECKER
MIB4 = model.MOST_BYTES

# What the note of a file `a` looks like for each status of a source.
WORD = "[^\t-\r ]+"
PLACE = r"(?:a|prelude) token [0-9]+: "
NUMBERED = (
    "underflow, needs N, has N|branches, N and N|recursive-input, input N|rows, input N, expected N, found N|outputs, declared N, found N"
).replace("N", "[0-9]+")
RULES = "not-known|too-deep|too-large|must-return|undeclared-recursion|row-declaration|method-effect|not-a-class"
KINDS = "unknown|twice|no-vocabulary|not-a-class|not-a-generic|bad-parent|cycle|too-many|undefined"
FAULTS = "not UTF-8|open string|bad escape|stuck quote"
NOTES = {
    0: r"",
    1: r"error: [a-z-]+ in [^\n]*\n",
    3: rf"syntax: a (?:token [1-9][0-9]*: (?:end of the file|not expected)|byte [0-9]+: (?:{FAULTS}))\n",
    4: rf"name: {PLACE}(?:(?:{KINDS}) {WORD}|ambiguous {WORD}, {WORD} and {WORD})\n",
    5: rf"check: (?:{WORD}|M: {WORD} {WORD}), {PLACE}(?:{RULES}|{NUMBERED})\n",
    6: rf"spent: {TICKS} ticks\n",
    9: r"input fault after [0-9]+ ticks\n",
    10: r"write fault after [0-9]+ ticks\n",
    11: r"too long: a, more than 4194304 bytes\n",
}
NOTES = {status: re.compile(note, re.DOTALL if status == 1 else 0) for status, note in NOTES.items()}


def is_of_form(status, note):
    """Whether a status is one of a source, and the note has its form."""
    return status in NOTES and NOTES[status].fullmatch(note) is not None


# Limits


def unknown(token, name):
    """The note on a name that nothing has."""
    return f"name: a token {token}: unknown {name}\n"


def classes(count):
    """So many classes, and the number of the name of the last one."""
    return "".join(f"SINGLETON: s{k}\n" for k in range(count)), 2 * count


def names(count):
    return " ".join(f"a{k}" for k in range(count))


GREAT, MANY = 1_000_000, 200_000

# A source, and the status and the note of `check a`.
LIMITS = [
    # brackets, at the limit, one beyond, and left open
    *(
        (about, made(256), status, "")
        for about, made, status in (
            ("256 quotations", lambda n: "[ " * n + "] " * n, DONE),
            ("256 arrays", lambda n: "{ " * n + "} " * n, DONE),
            ("256 fries", lambda n: "'[ " * n + "] " * n, DONE),
            ("256 quotations with inputs", lambda n: "[| | " * n + "] " * n, DONE),
        )
    ),
    ("257 quotations", "[ " * 257 + "] " * 257, SYNTAX, not_expected(257)),
    ("257 arrays", "{ " * 257 + "} " * 257, SYNTAX, not_expected(257)),
    ("257 fries", "'[ " * 257 + "] " * 257, SYNTAX, not_expected(257)),
    ("257 quotations with inputs", "[| | " * 257 + "] " * 257, SYNTAX, not_expected(513)),
    ("256 quotations that stay open", "[ " * 256, SYNTAX, ends(257)),
    ("256 arrays that stay open", "{ " * 256, SYNTAX, ends(257)),
    ("256 fries that stay open", "'[ " * 256, SYNTAX, ends(257)),
    ("256 quotations with inputs that stay open", "[| | " * 256, SYNTAX, ends(513)),
    ("255 quotations and a fry around an array", "[ " * 254 + "'[ { } ] " + "] " * 254, DONE, ""),
    ("256 quotations around an array", "[ " * 256 + "{ } " + "] " * 256, SYNTAX, not_expected(257)),
    ("64 nested effects", ": w ( " + "x: ( " * 64 + "-- " + ") -- " * 64 + ") ;", CHECKER, "check: scratchpad:w, a token 2: outputs, declared 0, found 1\n"),
    ("65 nested effects", ": w ( " + "x: ( " * 65 + "-- " + ") -- " * 65 + ") ;", SYNTAX, not_expected(132)),
    # names
    ("64 names of an effect", f"USE: kernel : w ( {names(63)} -- * ) throw ;", DONE, ""),
    ("64 names of an effect and one output", f"USE: kernel : w ( {names(64)} -- * ) throw ;", SYNTAX, not_expected(71)),
    ("65 names of an effect", f"USE: kernel : w ( {names(65)} -- * ) throw ;", SYNTAX, not_expected(70)),
    ("64 locals", f"USE: kernel :: w ( {names(64)} -- ) ;", DONE, ""),
    ("65 locals", "USE: kernel :: w ( -- ) " + "1 :> a " * 65 + ";", SYNTAX, not_expected(8 + 3 * 64 + 1)),
    ("64 holes", "1 " * 64 + "'[ " + "_ " * 64 + "]", DONE, ""),
    ("65 holes", "1 " * 65 + "'[ " + "_ " * 65 + "]", SYNTAX, not_expected(65 + 1 + 65)),
    ("64 slots", f"TUPLE: c {names(64)} ;", DONE, ""),
    ("65 slots", f"TUPLE: c {names(65)} ;", SYNTAX, not_expected(67)),
    ("64 slots with a parent's", f"TUPLE: p q ; TUPLE: c < p {names(63)} ;", DONE, ""),
    ("65 slots with a parent's", f"TUPLE: p q ; TUPLE: c < p {names(64)} ;", NAME, "name: a token 8: bad-parent p\n"),
    ("1,024 classes", classes(1_024)[0], DONE, ""),
    ("1,025 classes", classes(1_025)[0], NAME, f"name: a token {classes(1_025)[1]}: too-many s1024\n"),
    ("a name of 4,194,289 characters", f": {'x' * (MIB4 - 15)} ( -- )   ;\n", DONE, ""),
    ("an unknown name of 4,194,304 characters", "x" * MIB4, NAME, unknown(1, "x" * MIB4)),
    ("an unknown name of characters of four bytes", "\U0001f600" * (MIB4 // 4), NAME, unknown(1, "\U0001f600" * (MIB4 // 4))),
    ("a vocabulary of 4,194,299 characters", "IN: " + "v" * (MIB4 - 5) + "\n", DONE, ""),
    ("a vocabulary that isn't there", "USE: " + "v" * (MIB4 - 5), NAME, f"name: a token 2: no-vocabulary {'v' * (MIB4 - 5)}\n"),
    # strings
    ("1,000,000 characters", f'USE: kernel "{"x" * GREAT}" drop', DONE, ""),
    ("1,000,001 characters", f'USE: kernel "{"x" * (GREAT + 1)}" drop', SYNTAX, not_expected(3)),
    ("1,000,000 characters of four bytes", f'USE: kernel "{chr(0x1F600) * GREAT}" drop', DONE, ""),
    ("1,000,000 escapes", f'USE: kernel "{chr(92) * 2 * GREAT}" drop', DONE, ""),
    ("1,000,001 escapes", f'USE: kernel "{chr(92) * 2 * (GREAT + 1)}" drop', SYNTAX, not_expected(3)),
    ("a string that stays open", '"' + "x" * (MIB4 - 1), SYNTAX, "syntax: a byte 0: open string\n"),
    ("a quote behind a long name", "x" * (MIB4 - 1) + '"', SYNTAX, f"syntax: a byte {MIB4 - 1}: stuck quote\n"),
    ("an escape that is none at the end", '"' + "x" * (MIB4 - 3) + "\\x", SYNTAX, f"syntax: a byte {MIB4 - 2}: bad escape\n"),
    ("a byte that is none of UTF-8 at the end", b" " * (MIB4 - 1) + b"\xff", SYNTAX, f"syntax: a byte {MIB4 - 1}: not UTF-8\n"),
    ("a cut character at the end", b"x" * (MIB4 - 3) + b"\xf0\x9f\x98", SYNTAX, f"syntax: a byte {MIB4 - 3}: not UTF-8\n"),
    # numbers
    ("the greatest integer", str(model.GREATEST_INTEGER), DONE, ""),
    ("one more", str(model.GREATEST_INTEGER + 1), SYNTAX, not_expected(1)),
    ("the least integer", str(model.LEAST_INTEGER), DONE, ""),
    ("one less", str(model.LEAST_INTEGER - 1), SYNTAX, not_expected(1)),
    ("zeros before a number", "0" * (MIB4 - 1) + "1", DONE, ""),
    ("4,194,304 digits", "9" * MIB4, SYNTAX, not_expected(1)),
    ("a negative number of as many", "-" + "9" * (MIB4 - 1), SYNTAX, not_expected(1)),
    ("zeros before hexadecimal digits", "0x" + "0" * (MIB4 - 34) + "7" + "f" * 31, DONE, ""),
    ("one digit too many", "0x" + "0" * (MIB4 - 34) + "8" + "0" * 31, SYNTAX, not_expected(1)),
    ("the least integer in hexadecimal digits", "-0x8" + "0" * 31, DONE, ""),
    ("zeros before binary digits", "0b" + "0" * (MIB4 - 129) + "1" * 127, DONE, ""),
    ("one binary digit too many", "0b" + "0" * (MIB4 - 130) + "1" * 128, SYNTAX, not_expected(1)),
    ("zeros before octal digits", "0o" + "0" * (MIB4 - 45) + "1" + "7" * 42, DONE, ""),
    ("an octal number that is too great", "0o" + "0" * (MIB4 - 45) + "2" + "0" * 42, SYNTAX, not_expected(1)),
    ("commas", "1,0" * ((MIB4 - 2) // 3), SYNTAX, not_expected(1)),
    ("zeros and commas", "0," * (MIB4 // 2 - 1) + "01", DONE, ""),
    ("a comma at the end, so a name", "0," * (MIB4 // 2), NAME, unknown(1, "0," * (MIB4 // 2))),
    # arrays
    ("1,000,000 elements", "USE: kernel { " + "1 " * GREAT + "} drop", DONE, ""),
    ("1,000,001 elements", "USE: kernel { " + "1 " * (GREAT + 1) + "} drop", SYNTAX, not_expected(3 + GREAT + 1)),
    ("1,000,000 elements that are arrays", "USE: kernel { " + "{ } " * GREAT + "} drop", DONE, ""),
    # what the checker walks
    ("200,000 items", "USE: kernel : w ( -- ) " + "1 drop " * (MANY // 2) + ";", DONE, ""),
    ("200,001 items", "USE: kernel : w ( -- * ) " + "1 drop " * (MANY // 2) + "w ;", CHECKER, f"check: scratchpad:w, a token {9 + MANY}: too-large\n"),
    ("64 applications", "USE: kernel " + "[ " * 64 + "] call " * 64, DONE, ""),
    ("65 applications", "USE: kernel " + "[ " * 65 + "] call " * 65, CHECKER, f"check: top-level, a token {2 + 65 + 2}: too-deep\n"),
    # the bytes
    ("4,194,304 spaces", " " * MIB4, DONE, ""),
    ("4,194,305 spaces", " " * (MIB4 + 1), model.TOO_LONG, "too long: a, more than 4194304 bytes\n"),
    ("4,194,305 bytes that are none of UTF-8", b"\xff" * (MIB4 + 1), model.TOO_LONG, "too long: a, more than 4194304 bytes\n"),
]


# Long sources


def long_parts():
    """What is repeated up to the greatest length, with what stands before and behind it."""
    for token in TOKENS:
        yield token, "", token + " ", ""
    yield from (
        ("no spaces between brackets", "", "[]", ""),
        ("comments", "", "!\n", ""),
        ("one comment", "! ", "x", ""),
        ("carriage returns", "", "\r", ""),
        ("the byte 0", "", "\0", ""),
        ("empty strings", "", '"" ', ""),
        ("strings without a space", "", '""', ""),
        ("quotes", "", '"', ""),
        ("escapes outside of strings", "", "\\", ""),
        ("empty quotations", "", "[ ] ", ""),
        ("empty arrays", "", "{ } ", ""),
        ("arrays of arrays", "", "{ { { { } } } } ", ""),
        ("quotations in quotations", "", "[ " * 250 + "] " * 250, ""),
        ("fries in fries", "", "'[ " * 250 + "] " * 250, ""),
        ("fries with a hole", "", "1 '[ _ ] ", ""),
        ("fries with holes in fries", "USE: kernel ", "1 '[ '[ '[ _ ] ] ] drop ", ""),
        ("quotations with inputs", "", "[| a b | a b ] ", ""),
        ("locals", "USE: kernel ", "[| | 1 :> a a drop ] call ", ""),
        ("composing", "USE: kernel [ ] ", "[ ] compose ", "call"),
        ("currying", "USE: kernel [ ] ", "1 swap curry ", "call"),
        ("branches", "USE: kernel ", "t [ ] [ ] if ", ""),
        ("branches in branches", "USE: kernel t ", "[ t " * 60 + "[ ] [ ] if ] [ ] if " * 60, ""),
        ("cases", "USING: kernel combinators ; 1 { ", "{ [ dup ] [ drop ] } ", "[ drop ] } cond"),
        ("cases that stay open", "USING: kernel combinators ; ", "{ [ dup ] [ drop ] } ", "cond"),
        ("words", "", ": w ( -- ) ; ", ""),
        ("words that call themselves", "", ": w ( -- ) w ; ", ""),
        ("inline words", "", ": w ( -- ) ; inline ", ""),
        ("words that are deferred again", "", "DEFER: w ", ""),
        ("words without effects", "", ": w ; ", ""),
        ("symbols of one name", "", "SYMBOL: s ", ""),
        ("vocabularies", "", "IN: a ", ""),
        ("uses of one vocabulary", "", "USE: kernel ", ""),
        ("uses in one form", "USING: ", "kernel ", ";"),
        ("names that are brought", "FROM: kernel => ", "dup ", ";"),
        ("prefixes", "", "QUALIFIED-WITH: kernel k ", ""),
        ("private parts", "IN: a ", "<PRIVATE PRIVATE> ", ""),
        ("private parts in private parts", "IN: a ", "<PRIVATE ", ""),
        ("tuple classes of one name", "", "TUPLE: c ; ", ""),
        ("tuple classes under themselves", "", "TUPLE: c < c ; ", ""),
        ("a union of one class", "UNION: u ", "integer ", ";"),
        ("unions of themselves", "", "UNION: u u ; ", ""),
        ("generic words of one name", "", "GENERIC: g ( x -- ) ", ""),
        ("methods of one class", "USE: kernel GENERIC: g ( x -- ) ", "M: integer g drop ; ", ""),
        ("makers", "TUPLE: c ; ", "C: <c> c ", ""),
        ("the main word", ": w ( -- ) ; ", "MAIN: w ", ""),
        ("constants of one name", "", "CONSTANT: c 1 ", ""),
        ("effects of calls", "USE: kernel ", "[ ] call( -- ) ", ""),
        ("effects of calls with names", "USE: kernel ", "1 [ ] call( a -- a ) drop ", ""),
        ("wrapped words", "USE: kernel ", "\\ dup ", ""),
        ("a text of all characters", "", "".join(chr(k) for k in range(33, 1_000) if chr(k) not in '"\\') + "\n", ""),
    )


TOKENS = """; ( ) [ ] { } | \\ _ @ t f -- => :> [| '[ V{ H{ T{ #! M:: [let call( MEMO: HOOK: MATH: CHAR: inline MACRO: MIXIN: ERROR: ALIAS: SYNTAX:
    RENAME: execute( foldable SYMBOLS: EXCLUDE: recursive flushable INSTANCE: GENERIC#: POSTPONE: PREDICATE: QUALIFIED: SINGLETONS: call-next-method : ::
    USING: USE: IN: FROM: QUALIFIED-WITH: DEFER: SYMBOL: CONSTANT: MAIN: <PRIVATE PRIVATE> TUPLE: UNION: SINGLETON: GENERIC: M: C: < > ! 1 -1 0x -0x 0b
    1, a dup ( -- ) ..a * : "a" """.split()


def long_source(before, part, behind):
    """A source of nearly the greatest length, at most."""
    room = MIB4 - len(before.encode()) - len(behind.encode())
    return (before + part * (room // len(part.encode())) + behind).encode()


def chains():
    """Sources of nearly the greatest length whose forms name one another in a chain: a form, and how many there are at most."""
    for about, first, form, last, most in (
        ("words that call the one before", ": w0 ( -- ) ;\n", ": w{next} ( -- ) w{here} ;\n", "w{here}\n", None),
        ("words that call the one behind", "", ": w{here} ( -- ) w{next} ;\n", ": w{here} ( -- ) ;\n", None),
        ("inline words that call the one before", ": w0 ( -- ) ; inline\n", ": w{next} ( -- ) w{here} ; inline\n", "w{here}\n", None),
        ("inline words in a circle", "DEFER: w0\n", "DEFER: w{next}\n: w{here} ( -- ) w{next} ; inline\n", ": w{here} ( -- ) w0 ; inline\n", None),
        ("words that are deferred, each with the one behind", "DEFER: w0\n", "DEFER: w{next}\n: w{here} ( -- ) w{next} ;\n", ": w{here} ( -- ) ;\n", None),
        ("recursive inline words that take the one before", "USE: kernel\n: w0 ( -- ) ;\n", ": w{next} ( -- ) [ w{here} ] call ;\n", "", None),
        ("tuple classes under the one before", "TUPLE: c0 ;\n", "TUPLE: c{next} < c{here} ;\n", "", 1_000),
        ("tuple classes under the one behind", "DEFER: c0\n", "DEFER: c{next}\nTUPLE: c{here} < c{next} ;\n", "TUPLE: c{here} ;\n", 1_000),
        ("unions of the one before", "SINGLETON: c0\n", "UNION: c{next} c{here} ;\n", "", 1_000),
        ("unions of the one behind", "DEFER: c0\n", "DEFER: c{next}\nUNION: c{here} c{next} ;\n", "SINGLETON: c{here}\n", 1_000),
        ("unions in a circle", "DEFER: c0\n", "DEFER: c{next}\nUNION: c{here} c{next} ;\n", "UNION: c{here} c0 ;\n", 1_000),
    ):
        forms, length, here = [first], len(first), 0
        while length < MIB4 - 100 and here != most:
            forms.append(form.format(here=here, next=here + 1))
            length += len(forms[-1])
            here += 1
        yield about, ("".join(forms) + last.format(here=here)).encode()


# Deep values

LINK = "TUPLE: link next ; "
DEPTH = 400_000
# So many turns take nearly 100,000,000 ticks.
DEEPEST = 2_900_000
SHOWN = "{ " * 16 + "..." + " }" * 16

# So many words, each of which calls the one before.
WORDS = 80_000
ONE_MORE = ": w0 ( n -- n ) 1 + ; "


def in_quotations(behind):
    """Words each of which calls the one before in a quotation, with these items behind the call."""
    return "".join(f": w{k + 1} ( n -- n ) [ w{k} ] call{behind} ; " for k in range(WORDS))


# A program that uses all vocabularies, and the status, the output and the note of its run.
DEEP = [
    ("arrays in arrays", f"f {DEPTH} [ 1array ] times drop", 0, "", ""),
    ("their printed form", f"f {DEPTH} [ 1array ] times .", 0, SHOWN + "\n", ""),
    ("one that is thrown", f"f {DEPTH} [ 1array ] times throw", 1, "", f"error: thrown in kernel:throw: {SHOWN}\n"),
    ("two that are equal", f"f {DEPTH} [ 1array ] times f {DEPTH} [ 1array ] times = .", 0, "t\n", ""),
    ("two that differ at the end", f"f {DEPTH} [ 1array ] times t {DEPTH} [ 1array ] times = .", 0, "f\n", ""),
    ("two that are too deep", "f 1000001 [ 1array ] times f 1000001 [ 1array ] times = .", 1, "", "error: compare-too-large in kernel:=\n"),
    ("tuples in tuples", f"{LINK}f {DEPTH} [ link boa ] times f {DEPTH} [ link boa ] times = .", 0, "t\n", ""),
    ("a value that holds itself", "1 f <array> dup dup 0 swap set-nth dup length . drop", 0, "1\n", ""),
    ("quotations that keep others", f"{{ [ 5 ] }} first {DEPTH} [ [ call( -- x ) ] curry ] times call( -- x ) .", 0, "5\n", ""),
    ("values that are curried", f"{{ [ ] }} first {DEPTH} [ 1 swap curry ] times drop", 0, "", ""),
    ("quotations that are composed", f"{{ [ ] }} first {DEPTH} [ [ ] compose ] times call( -- )", 0, "", ""),
    ("quotations that are composed on the left", f"{{ [ ] }} first {DEPTH} [ [ ] swap compose ] times call( -- )", 0, "", ""),
    ("calls", f": r ( n -- ) dup 0 > [ 1 - r 0 drop ] [ drop ] if ; {DEPTH} r 7 .", 0, "7\n", ""),
    ("calls under a value", f": r ( n -- m ) dup 0 > [ 1 - 5 [ r ] dip drop ] when ; {DEPTH} r .", 0, "0\n", ""),
    ("calls with locals", f":: r ( n -- m ) n 0 > [ n 1 - r 1 + ] [ 0 ] if ; {DEPTH} r .", 0, f"{DEPTH}\n", ""),
    ("calls that never end", ": r ( -- ) r 0 drop ; r", 6, "", "spent: 100000000 ticks\n"),
    # as deep as 100,000,000 ticks make them
    ("arrays in arrays for all ticks", f"f {DEEPEST} [ 1array ] times drop", 0, "", ""),
    ("arrays in arrays until the budget is spent", f"f {2 * DEEPEST} [ 1array ] times drop", 6, "", "spent: 100000000 ticks\n"),
    ("tuples in tuples for all ticks", f"{LINK}f {DEEPEST} [ link boa ] times drop", 0, "", ""),
    ("values that are curried for all ticks", f"{{ [ ] }} first {DEEPEST} [ 1 swap curry ] times drop", 0, "", ""),
    ("quotations that are composed for all ticks", f"{{ [ ] }} first {DEEPEST} [ [ ] compose ] times drop", 0, "", ""),
    ("calls under values until the budget is spent", ": r ( -- ) 5 [ r ] dip drop ; r", 6, "", "spent: 100000000 ticks\n"),
    ("values on the stack until the budget is spent", ": r ( -- ) 1 r drop ; r", 6, "", "spent: 100000000 ticks\n"),
    # as deep as the longest source makes them
    (
        "a `cond` of too many cases",
        "7 { " + "{ [ dup 1 = ] [ drop 1 ] } " * 140_000 + "[ drop 2 ] } cond .",
        CHECKER,
        "",
        f"check: top-level, a token {13 + 11 * 140_000 + 6}: too-deep\n",
    ),
    ("known words in known quotations", f"{ONE_MORE}{in_quotations('')} 5 w{WORDS} .", 0, "6\n", ""),
    ("calls in known quotations", f"{ONE_MORE}{in_quotations(' 1 +')} 5 w{WORDS} .", 0, f"{WORDS + 6}\n", ""),
    ("methods", f"GENERIC: g ( n -- m ) M: integer g dup 0 > [ 1 - g 1 + ] when ; {DEPTH} g .", 0, f"{DEPTH}\n", ""),
]


# Images

# How many lists an image has, and the number of that of the code.
LISTS, CODE = 9, 8
GREATEST_NUMBER = image_model.leb(2**32 - 1)


def image_of(place, count, given):
    """The bytes of an image in which one list has so many elements of these bytes together, and which halts at once."""
    before, behind = bytes(place), bytes(CODE - place - 1) + b"\1\0" if place < CODE else b""
    return b"FCI1" + before + image_model.leb(count) + given + behind + b"\0"


def images():
    """What each image shows, with its bytes: lists of many small elements, and lists that claim more than there is."""
    for place, element, name in (
        (0, b"\0", "empty texts"),
        (0, b"\1x", "texts of a character"),
        (1, b"\0", "empty arrays"),
        (1, b"\10" + b"\1\0" * 8, "arrays of eight"),
        (3, b"\0", "empty sets of classes"),
        (CODE, b"\0", "instructions"),
    ):
        count = BASE // len(element)
        yield name, image_of(place, count, element * count)
    for place in range(LISTS):
        for name, behind in (("nothing", b""), ("zeros", bytes(BASE)), ("ones", b"\1" * BASE), ("great numbers", GREATEST_NUMBER * (BASE // 8))):
            yield f"{name} where list {place} has 4,294,967,295 elements", b"FCI1" + bytes(place) + GREATEST_NUMBER + behind


# What is done with them


class Checked:
    """Runs the program on sources in a folder, and tells what is wrong."""

    def __init__(self, program, folder):
        self.program = program
        self.folder = folder
        self.allocations = Allocations(folder, MOST_SECONDS)
        self.failed = []
        self.worst, self.base = [], 0
        self.base = self.of("nothing", b"", most=None).most
        self.worst.clear()

    def of(self, about, given, command="check", most=MOST_BYTES_A_BYTE):
        """How a command on a file of these bytes ends. It is told where it takes more memory than so many bytes for each of these."""
        with open(os.path.join(self.folder, "a"), "wb") as file:
            file.write(given)
        ended = self.allocations.run([self.program, command, "a"])
        more = max(0, ended.most - self.base - BASE)
        self.worst.append((more / max(1, len(given)), about, len(given), ended.most))
        if most is not None and more > KNOWN.get(about, most) * len(given):
            self.failed.append(f"{about}: {ended.most:,} bytes of memory for {len(given):,}")
        return ended

    def tell(self, name, count):
        """Prints what was done, and what took most memory."""
        print(f"{name}: {count} of them; `check` of a file without a byte takes {self.base:,} bytes of memory", flush=True)
        for each, about, length, most in sorted(self.worst, reverse=True)[:5]:
            print(f"    {about}: {length:,} bytes, {most:,} of memory, {each:.1f} for each", flush=True)
        self.worst = []


def check_limits(checked):
    """Checks the sources at the limits."""
    for about, source, status, note in LIMITS:
        ended = checked.of(about, source if type(source) is bytes else source.encode())
        wanted = note.encode()
        if (ended.status, ended.note) != (status, wanted):
            checked.failed.append(f"{about}: status {ended.status}, note {ended.note[:100]!r}, and not {status}, {wanted[:100]!r}")
    checked.tell("limits", len(LIMITS))


def check_long(checked):
    """Checks the sources of the greatest length."""
    statuses, count = Counter(), 0
    made = ((about, long_source(before, part, behind)) for about, before, part, behind in long_parts())
    for about, source in (*made, *chains()):
        ended = checked.of(about, source)
        count += 1
        statuses[ended.status] += 1
        if not is_of_form(ended.status, ended.note.decode(errors="replace")):
            checked.failed.append(f"{about}: status {ended.status}, note {ended.note[:100]!r}")
    checked.tell("long", count)
    print("    " + ", ".join(f"status {status}: {times}" for status, times in statuses.most_common()), flush=True)


def check_deep(checked):
    """Runs the programs that nest values, with a small stack."""
    for about, source, status, output, note in DEEP:
        with open(os.path.join(checked.folder, "a"), "w", encoding="utf-8") as file:
            file.write(f"{H} {source}")
        words = [*LITTLE_STACK, checked.program, "run", "a"]
        ended = processes.run(words, MOST_SECONDS, folder=checked.folder)
        got = ended.status, ended.output.decode(), ended.note.decode()
        if got != (status, output, note):
            checked.failed.append(f"{about}: {got[0]}, {got[1][:80]!r}, {got[2][:80]!r}")
    print(f"deep: {len(DEEP)} programs", flush=True)


def check_images(checked):
    """Executes and lists images."""
    count = 0
    for about, given in images():
        found = image_model.found_in(given)
        for command, most, answer in (
            ("exec", MOST_BYTES_A_BYTE_OF_IMAGE, image_model.answer_of_exec(found, model.BUDGET)),
            ("list", None, image_model.answer_of_list(found)),
        ):
            ended = checked.of(f"{command} of {about}", given, command, most)
            count += 1
            if (ended.status, ended.output, ended.note) != (answer.status, answer.output.encode(), answer.note.encode()):
                checked.failed.append(f"{command} of {about}: status {ended.status}, note {ended.note[:100]!r}, and not {answer.status}, {answer.note!r}")
    checked.tell("images", count)


# Damage


def sources():
    """What is damaged."""
    found = [source if type(source) is bytes else source.encode() for source, *_ in examples.EXAMPLES]
    for path in sorted(glob.glob(os.path.join(TOP, "examples", "*.factor")) + glob.glob(os.path.join(TOP, "lib", "*.factor"))):
        with open(path, "rb") as file:
            found.append(file.read())
    for group in ("CALLS", "CLASSES", "OBJECTS", "ROWS"):
        found += [f"{H} {text}".encode() for text, *_ in getattr(examples, f"EXAMPLES_OF_{group}")]
    return [source for source in found if 0 < len(source) <= 4_000]


BYTES = [b"\xff", b"\xc3", b"\xe2\x82", b"\xf0\x9f\x98\x80", b"\xed\xa0\x80", b"\0", b'"', b"\\", b"!", b"\n", b"\r", b" ", b"\x0b", b"\x7f", b"\xc2\xa0"]


def damaged(source, others, chance):
    """The source with one thing changed: bytes, or whole tokens."""
    if chance.random() < 0.5:
        tokens = re.split(rb"(\s+)", source)
        place = 2 * chance.randrange((len(tokens) + 1) // 2)
        way = chance.randrange(5)
        if way == 0:
            tokens[place] = chance.choice(TOKENS).encode()
        elif way == 1:
            tokens[place : place + 2 * chance.randint(1, 3)] = []
        elif way == 2:
            tokens[place:place] = [chance.choice(TOKENS).encode(), b" "]
        elif way == 3:
            tokens[place] = tokens[2 * chance.randrange((len(tokens) + 1) // 2)]
        else:
            other = re.split(rb"(\s+)", chance.choice(others))
            first = 2 * chance.randrange((len(other) + 1) // 2)
            tokens[place:place] = [*other[first : first + 2 * chance.randint(1, 8)], b" "]
        return b"".join(tokens)
    place = chance.randrange(len(source) + 1)
    end = min(len(source), place + chance.choice([0, 1, 1, 1, 2, 3, 8]))
    way = chance.randrange(5)
    if way == 0:
        new = bytes(chance.randrange(256) for _ in range(end - place))
    elif way == 1:
        new = b""
    elif way == 2:
        new = chance.choice(BYTES)
    elif way == 3:
        new = bytes([source[place] ^ (1 << chance.randrange(8))]) + source[place + 1 : end] if place < len(source) else b""
    else:
        new = source[place:end] * 2
    return source[:place] + new + source[end:]


def mutation(seed, number, given):
    """The case with this number: a damaged source, which is checked or run."""
    chance = random.Random(f"{seed} {number}")
    source = chance.choice(given)
    for _ in range(chance.choice([1, 1, 1, 2, 3, 6])):
        source = damaged(source, given, chance) or b" "
    case = cases.Case()
    case.room = ROOM
    case.words = ["check", "a"] if chance.random() < 0.5 else ["run", "--steps", str(TICKS), "a"]
    case.sources = {"a": source}
    return case


def wrong_in(case, told):
    """The status that is told of a case, and what is wrong with it."""
    found = re.match(r"  status ([0-9]+), ([0-9]+) ticks, loads a", told[0]) if told else None
    if found is None:
        return None, f"it is told {told}"
    status = int(found[1])
    note = "".join(line.removeprefix("  notes ") for line in told if line.startswith("  notes "))
    note = re.sub(r"\\(.)", lambda escape: {"n": "\n", "r": "\r", "t": "\t"}.get(escape[1], escape[1]), note)
    if not is_of_form(status, note):
        return status, f"status {status}, note {note[:100]!r}"
    return status, None


def model_of(case):
    """What the model says that is told of a case."""
    try:
        return case.answered()
    except (model.Stuck, RecursionError) as error:
        return [f"the model fails: {error!r}"]


STATE = {}


def begin(program, folder, every):
    """Begins a worker."""
    STATE.update(program=program, given=sources(), every=every, folder=folder)


def mutations(task):
    """Compares damaged sources of some numbers: how often each status was met, and what failed, each with its source."""
    seed, numbers = task
    made = [mutation(seed, number, STATE["given"]) for number in numbers]
    tally, failed = Counter(), []
    told, status = cases.told_by(STATE["program"], made)
    if status != 0 or len(told) < len(made):
        # One of them ended the program; each is run alone.
        for case in made:
            alone, status = cases.told_by(STATE["program"], [case])
            if status != 0:
                failed.append((case.sources["a"], f"{case.words} ends with {status}, told {alone}"))
        return tally, failed or [(b"", f"{len(made)} cases from {numbers[0]} on end with {status}, and none of them alone")]
    for number, case, lines in zip(numbers, made, told):
        status, wrong = wrong_in(case, lines)
        tally[status] += 1
        if wrong is None and STATE["every"] and number % STATE["every"] == 0:
            wanted = model_of(case)
            tally["compared"] += 1
            wrong = None if wanted == lines else f"{lines} and not {wanted}"
        failed += [(case.sources["a"], f"{case.words}: {wrong}")] if wrong else []
    return tally, failed


def check_damaged(words, failed):
    """Damages sources."""
    tally, kept = Counter(), None
    tasks = ((words.seed, range(first, min(first + BATCH, words.mutations))) for first in range(0, words.mutations, BATCH))
    with tempfile.TemporaryDirectory() as folder, multiprocessing.Pool(words.jobs, begin, (speed.built(words.cases), folder, words.model)) as pool:
        for done, (counted, found) in enumerate(pool.imap_unordered(mutations, tasks), 1):
            tally += counted
            for source, wrong in found:
                kept = kept or tempfile.mkdtemp(prefix="hostile-kept-")
                path = os.path.join(kept, str(len(failed)))
                with open(path, "wb") as file:
                    file.write(source)
                failed.append(f"{path}: {wrong}")
            if len(failed) > MOST_FAILURES:
                break
            if done % 500 == 0:
                print(f"    {done * BATCH:,} sources", flush=True)
        pool.terminate()
    print("damaged: " + ", ".join(f"{status} {times:,}" for status, times in tally.most_common()), flush=True)


def arguments():
    """The words of the command line."""
    parser = argparse.ArgumentParser(description="Gives the built factorc sources that are damaged, deep or long.")
    parser.add_argument("program", nargs="?", default=speed.DEFAULT, metavar="PROGRAM")
    parser.add_argument("--cases", default=CASES)
    parser.add_argument("--mutations", type=int, default=1_000_000)
    parser.add_argument("--model", type=int, default=50)
    parser.add_argument("--seed", type=int, default=1)
    parser.add_argument("--jobs", type=int, default=os.cpu_count())
    parser.add_argument("--only", choices=["limits", "long", "deep", "images", "damaged"])
    return parser.parse_args()


def main():
    words = arguments()
    failed = []
    if words.only != "damaged":
        with tempfile.TemporaryDirectory() as folder:
            checked = Checked(speed.built(words.program), folder)
            for name, part in (("limits", check_limits), ("long", check_long), ("deep", check_deep), ("images", check_images)):
                if words.only in (None, name):
                    part(checked)
            failed += checked.failed
    if words.only in (None, "damaged"):
        check_damaged(words, failed)
    return speed.finish(failed)


if __name__ == "__main__":
    sys.exit(main())
