#!/usr/bin/env python3
"""Lists the instructions of the processor that a program spends its time in, each with how often it ran, by valgrind's callgrind.

    python3 bench/hot.py [--of NAME] [--least N] PROGRAM [WORD ..] [< INPUT]

Of each function whose name holds NAME, by default the machine's run (`RunState::run`), it prints those that ran at least N times (2000), in
the order of their places. A line `---` stands where others are left out. So `fac_image_cases` with the listing of an image shows what each
instruction of the machine's loop takes.
"""
import argparse
import collections
import re
import subprocess
import sys
import tempfile


def counts(path):
    """How often each place ran, by the name of its function."""
    found, names, function, place, is_call = collections.Counter(), {}, None, 0, False
    for line in open(path):
        for number, name in re.findall(r"c?fn=\((\d+)\) (.*)", line):
            names[number] = name
        if entered := re.match(r"fn=\((\d+)\)", line):
            function = entered[1]
        elif line.startswith("calls="):
            is_call = True
        elif cost := re.match(r"(0x[0-9a-f]+|[+-]\d+|\*) \S+ (\d+)$", line):
            where = cost[1]
            place = int(where, 16) if where.startswith("0x") else place + (0 if where == "*" else int(where))
            # (what stands behind a call is what the called function took)
            if not is_call:
                found[names.get(function, ""), place] += int(cost[2])
            is_call = False
    return found


def main():
    words = argparse.ArgumentParser(usage=__doc__)
    words.add_argument("--of", default="RunState::run")
    words.add_argument("--least", type=int, default=2000)
    words.add_argument("program")
    words.add_argument("words", nargs="*")
    given = words.parse_args()
    with tempfile.NamedTemporaryFile() as out:
        tool = ["valgrind", "--tool=callgrind", "--dump-instr=yes", f"--callgrind-out-file={out.name}"]
        subprocess.run([*tool, given.program, *given.words], stdin=sys.stdin, stdout=subprocess.DEVNULL, stderr=subprocess.DEVNULL)
        ran = sorted((place, times) for (name, place), times in counts(out.name).items() if given.of in name and times >= given.least)
    code = subprocess.run(["objdump", "-d", "--no-show-raw-insn", "-C", given.program], capture_output=True, text=True).stdout
    text = {int(place, 16): line for place, line in re.findall(r"^\s+([0-9a-f]+):\s+(.*)$", code, re.M)}
    before = None
    for place, times in ran:
        if before is not None and place - before > 16:
            print("---")
        print(f"{place:x} {times:10d} {text.get(place, '')}")
        before = place
    print(f"{sum(times for _, times in ran)} in {len(ran)} instructions")


main()
