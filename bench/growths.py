#!/usr/bin/env python3
"""Refuses the built factorc each of its allocations in turn, and looks how it ends.

    python3 bench/growths.py [PROGRAM] [--every K] [--jobs J]

PROGRAM is the built program, by default crates/factorc/out/factorc. The program below, which has a tuple class, its maker, words with
quotations and a `cond`, is run, built, and executed from its image; another one reads lines; and a session has lines of all sorts. Each command is counted
first. Then
it is run once for each of its allocations, and that one is refused it; and once more so that all behind it are refused too. With `--every K` only
each K-th is. J processes share the work, as many as there are processors by default.

Each run has to end in the command's own answer, or in status 12 with its note; then what it wrote is a front of its output, a session has told whole
notes with which its own begin, and the image isn't there or is the whole one. The script ends with status 1 where a run ends otherwise, and tells the
first such ones.
"""

import argparse
import multiprocessing
import os
import sys
import tempfile
from collections import Counter

import model
import speed
from allocations import Allocations

MEMORY = 12
MOST_TOLD = 20

BANK = b"""USING: kernel math sequences arrays io prettyprint combinators accessors math.parser ; IN: bank
TUPLE: account owner balance ; C: <account> account
: deposit ( account n -- account ) over balance>> + >>balance ;
: show ( account -- ) [ owner>> write ] [ ": " write balance>> number>string print ] bi ;
: grade ( n -- str ) { { [ dup 100 < ] [ drop "low" ] } { [ dup 1000 < ] [ drop "mid" ] } [ drop "high" ] } cond ;
"ann" 50 <account> 75 deposit dup show balance>> grade print
"""
PRINTED = b"ann: 125\nmid\n"

READS = b"USING: io kernel prettyprint sequences ; { } [ readln dup ] [ suffix ] while drop reverse .\n"
LINES = b"one\ntwo\n\nfour\n"

# A session in which lines define, run, fail, are refused, wait, and read a line.
SESSION = b"""TUPLE: account owner balance ; GENERIC: worth ( x -- n )
M: account worth balance>> ; : both ( x y -- n ) [ worth ] bi@ + ;
"ann" 50 account boa { "bob" }
worth +
M: array worth length ;
both swap foo
both [ 1
+ ] call readln
forty
length + 0 /i
length + { 5 } dup first pick = .
: over ( x -- )
"""
STACK = b"--- Data stack:\n"
SESSION_OUTPUT = STACK + b'T{ account "ann" 50 }\n{ "bob" }\n' + STACK + b'52\n"forty"\nf\n' + STACK + b"57\n{ 5 }\n"
SESSION_NOTES = b"""error: no-method in scratchpad:worth: { "bob" }
name: listener token 3: unknown foo
error: zero-divisor in math:/i
syntax: listener token 7: end of the file
"""
MEMORY_NOTE = b"out of memory\n"

# Commands with their input, their output, and what their note is where they aren't done.
COMMANDS = [
    (["run", "bank"], b"", (0, PRINTED, b"")),
    (["run", "--steps", "30", "bank"], b"", (6, b"ann: ", b"spent: 30 ticks\n")),
    (["build", "bank", "-o", "image"], b"", (0, b"", b"")),
    (["exec", "bank.image"], b"", (0, PRINTED, b"")),
    (["run", "reads"], LINES, (0, b'{ "four" "" "two" "one" }\n', b"")),
    (["exec", "reads.image"], LINES, (0, b'{ "four" "" "two" "one" }\n', b"")),
    (["listen"], SESSION, (3, SESSION_OUTPUT, SESSION_NOTES)),
]

STATE = {}


def begin(program, folder):
    """Begins a worker, in a folder of its own in this one."""
    own = tempfile.mkdtemp(dir=folder)
    STATE.update(program=program, allocations=Allocations(own), whole={})
    for name, source in (("bank", BANK), ("reads", READS)):
        with open(os.path.join(own, name), "wb") as file:
            file.write(source)
        ended = STATE["allocations"].run([program, "build", name, "-o", f"{name}.image"])
        if ended.status != 0:
            raise OSError(f"build {name} ends with status {ended.status}")
    STATE["whole"] = saved("bank.image")


def saved(name):
    """The bytes of a file in the worker's folder, or None."""
    path = os.path.join(STATE["allocations"].folder, name)
    if not os.path.exists(path):
        return None
    with open(path, "rb") as file:
        return file.read()


def count(number):
    """How often a command allocates, and what is wrong with its answer."""
    words, given, wanted = COMMANDS[number]
    ended = STATE["allocations"].run([STATE["program"], *words], given)
    return ended.calls, (ended.status, ended.output, ended.note), (ended.status, ended.output, ended.note) == wanted


def notes_before(words, notes):
    """What notes may have before the last one: nothing, or in a session whole ones."""
    lines = notes.splitlines(True) if words == ["listen"] else []
    return [b"".join(lines[:count]) for count in range(len(lines) + 1)]


def refuse(task):
    """How a command ends where an allocation is refused, and all those behind it up to another: a word for the end, and what is wrong with it."""
    number, first, last = task
    words, given, wanted = COMMANDS[number]
    image = os.path.join(STATE["allocations"].folder, "image")
    if os.path.exists(image):
        os.remove(image)
    ended = STATE["allocations"].run([STATE["program"], *words], given, first, last)
    builds = words[0] == "build"
    if (ended.status, ended.output, ended.note) == wanted:
        is_whole = not builds or saved("image") == STATE["whole"]
        return "its answer", None if is_whole else f"{words}, {first} to {last}: the image isn't the whole one"
    fits = (
        ended.status == MEMORY
        and wanted[1].startswith(ended.output)
        and ended.note.endswith(MEMORY_NOTE)
        and ended.note.removesuffix(MEMORY_NOTE) in notes_before(words, wanted[2])
        and (not builds or saved("image") in (None, STATE["whole"]))
    )
    told = f"status {ended.status}, output {ended.output[-80:]!r}, note {ended.note[-80:]!r}"
    return "memory", None if fits else f"{words}, {first} to {last} refused: {told}"


def main():
    parser = argparse.ArgumentParser(description="Refuses the built factorc each of its allocations in turn.")
    parser.add_argument("program", nargs="?", default=speed.DEFAULT, metavar="PROGRAM")
    parser.add_argument("--every", type=int, default=1)
    parser.add_argument("--jobs", type=int, default=os.cpu_count())
    words = parser.parse_args()
    program = speed.built(words.program)
    failed = []
    with tempfile.TemporaryDirectory() as folder, multiprocessing.Pool(words.jobs, begin, (program, folder)) as pool:
        for number, (command, _, _) in enumerate(COMMANDS):
            if command == ["listen"] and "listen" not in model.BUILT:
                continue
            calls, ended, is_right = pool.apply(count, (number,))
            if not is_right:
                failed.append(f"{command} answers {ended} where nothing is refused")
                continue
            for name, behind in (("one", False), ("all from one on", True)):
                tasks = ((number, first, calls if behind else first) for first in range(1, calls + 1, words.every))
                tally = Counter()
                for end, wrong in pool.imap_unordered(refuse, tasks, 50):
                    tally[end] += 1
                    failed += [wrong] if wrong else []
                ends = ", ".join(f"{end} {times}" for end, times in tally.most_common())
                print(f"{' '.join(command)}: {calls} allocations, {name} refused: {ends}", flush=True)
        pool.terminate()
    left = len(failed) - MOST_TOLD
    return speed.finish(failed[:MOST_TOLD] + ([f"and {left} more"] if left > 0 else []))


if __name__ == "__main__":
    sys.exit(main())
