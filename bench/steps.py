#!/usr/bin/env python3
"""Tells how many instructions of the processor the machine takes for a step, by valgrind's callgrind.

    python3 bench/steps.py [PROGRAM]

PROGRAM is the built program, by default crates/factorc/out/factorc. Each program is built into an image and executed twice, with fewer and
with more turns, and what the greater number takes more is divided by the turns more. So neither the start nor the image's size counts. A word
that calls itself does the turns, and what it takes without a body is subtracted, but for `fib`, `times` and `each`, which are told whole.

The steps are those of the machine: each item is one, and so is the `ret` behind a word's or a quotation's items. It ends with status 1 where
a program answers wrongly.
"""
import pathlib
import re
import subprocess
import sys
import tempfile

ROOT = pathlib.Path(__file__).resolve().parent.parent
PROGRAM = sys.argv[1] if len(sys.argv) > 1 else str(ROOT / "crates/factorc/out/factorc")

USING = "USING: kernel math prettyprint sequences arrays accessors combinators ; "
LOOP = ": turn ( n -- ) dup 0 = [ drop ] [ %s 1 - turn ] if ; recursive "

# What is done in a turn, what stands before the words, and how many steps it is.
BODIES = [
    ("one literal and `drop`", "1 drop", "", 2),
    ("`dup drop`", "dup drop", "", 2),
    ("`swap` of two literals, and `2drop`", "1 2 swap 2drop", "", 4),
    ("`rot` of three literals, and `3drop`", "1 2 3 rot 3drop", "", 5),
    ("`+` of two literals, and `drop`", "1 2 + drop", "", 4),
    ("`*` of two literals, and `drop`", "3 2 * drop", "", 4),
    ("`/i` of two literals, and `drop`", "7 2 /i drop", "", 4),
    ("`mod` of two literals, and `drop`", "7 2 mod drop", "", 4),
    ("`<` of two literals, and `drop`", "1 2 < drop", "", 4),
    ("`=` of two literals, and `drop`", "1 2 = drop", "", 4),
    ("a call of a word with nothing in it", "none", ": none ( -- ) ; ", 2),
    ("`[ ] call`", "[ ] call", "", 3),
    ("`t [ ] [ ] if`", "t [ ] [ ] if", "", 5),
    ("`1 [ ] dip drop`", "1 [ ] dip drop", "", 5),
    ("`1 [ drop ] curry call`", "1 [ drop ] curry call", "", 6),
    ("`[ ] [ ] compose call`", "[ ] [ ] compose call", "", 6),
    ("`0 { 1 2 } nth drop`", "0 { 1 2 } nth drop", "", 4),
]

# The same with a tuple below the number, and what is done with it there; `over drop` is subtracted.
TUPLE = "TUPLE: box a b ; GENERIC: same ( box -- box ) M: box same ; "
WITH_TUPLE = ": turn ( box n -- ) dup 0 = [ 2drop ] [ %s 1 - turn ] if ; recursive "
TUPLE_BODIES = [
    ("a read of a tuple's first slot", "over a>> drop", 1),
    ("a read of its second slot", "over b>> drop", 1),
    ("`5` and a write of its first slot", "over 5 >>a drop", 2),
    ("a generic call, and the `ret` of its method", "over same drop", 2),
    ("a class test", "over box? drop", 1),
    ("a tuple that is made of two literals, and `drop`", "over drop 1 2 box boa drop", 5),
]

# A turn of a generator of random numbers, whose three operations are on integers of up to 128 bits.
WIDE = ": turn ( seed n -- ) dup 0 = [ 2drop ] [ [ 6364136223846793005 * 1442695040888963407 + 18446744073709551616 mod ] dip 1 - turn ] if ; recursive "


def built(folder, text):
    source = folder / "a.factor"
    source.write_text(USING + text)
    image = folder / "a.fci"
    done = subprocess.run([PROGRAM, "build", str(source), "-o", str(image)], capture_output=True, text=True)
    if done.returncode:
        sys.exit(f"{text}\n{done.stdout}{done.stderr}")
    return image


def counted(folder, text, wanted):
    """The instructions that the execution of a program takes, which must write this."""
    image = built(folder, text)
    done = subprocess.run(["valgrind", "--tool=callgrind", f"--callgrind-out-file={folder}/out", PROGRAM, "exec", str(image)], capture_output=True, text=True)
    if done.returncode or done.stdout != wanted:
        sys.exit(f"{text}\n{done.returncode} {done.stdout!r}, and {wanted!r} is wanted\n{done.stderr[-400:]}")
    return int(re.search(r"Collected : (\d+)", done.stderr)[1])


def turns(folder, text, given=""):
    few, many = 200, 2200
    return (counted(folder, f"{text}{given} {many} turn", "") - counted(folder, f"{text}{given} {few} turn", "")) / (many - few)


def main():
    with tempfile.TemporaryDirectory() as name:
        folder = pathlib.Path(name)
        print("| Program | Instructions of the processor | A step |")
        print("|---|---|---|")
        fib = ": fib ( n -- m ) dup 2 < [ ] [ dup 1 - fib swap 2 - fib + ] if ; recursive "
        # a call of fib takes 7 steps to its choice, of which an end takes 1 more and the others 10
        calls = {0: 1, 1: 1}
        for n in range(2, 25):
            calls[n] = calls[n - 1] + calls[n - 2] + 1
        ends = {0: 1, 1: 1}
        for n in range(2, 25):
            ends[n] = ends[n - 1] + ends[n - 2]
        steps = {n: 7 * calls[n] + ends[n] + 10 * (calls[n] - ends[n]) for n in calls}
        whole = counted(folder, f"{fib}20 fib .", "6765\n") - counted(folder, f"{fib}15 fib .", "610\n")
        print(f"| `fib` | | {whole / (steps[20] - steps[15]):.1f} |", flush=True)
        whole = (counted(folder, "7 2200 [ ] times .", "7\n") - counted(folder, "7 200 [ ] times .", "7\n")) / 2000
        print(f"| a turn of `times` | {whole:.0f} | {whole / 31:.1f} |", flush=True)
        whole = (counted(folder, "0 2200 <iota> [ + ] each .", "2418900\n") - counted(folder, "0 200 <iota> [ + ] each .", "19900\n")) / 2000
        print(f"| a turn of `each` | {whole:.0f} | {whole / 33:.1f} |", flush=True)
        none = turns(folder, LOOP % "")
        print(f"| a turn with nothing in it | {none:.0f} | |", flush=True)
        for what, body, head, count in BODIES:
            took = turns(folder, head + LOOP % body) - none
            print(f"| {what} | {took:.0f} | {took / count:.1f} |", flush=True)
        box = "1 2 box boa"
        none = turns(folder, TUPLE + WITH_TUPLE % "over drop", box)
        for what, body, count in TUPLE_BODIES:
            took = turns(folder, TUPLE + WITH_TUPLE % body, box) - none
            print(f"| {what} | {took:.0f} | {took / count:.1f} |", flush=True)
        print(f"| a turn with three operations on integers of 127 bits | {turns(folder, WIDE, '12345'):.0f} | |", flush=True)


main()
