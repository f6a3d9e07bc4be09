#!/usr/bin/env python3
"""Measures how long factorc takes to read, check and compile many small words, beside what reads the same functions in other languages.

    python3 bench/readers.py [PROGRAM]

PROGRAM is the built program, by default crates/factorc/out/factorc. The script writes 10,000 words of ten items each, and the same
functions for wat2wasm, which reads, validates and writes them, and for luac, which reads them; either is left out where it isn't
installed (Debian has them as wabt and lua5.4). Each is run several times, and the shortest time is told.

The memory of factorc is told in bytes for each byte of source: how much more 80,000 words take than 40,000, by how much longer their
file is. So what the system counts for each process, however small, doesn't matter, as long as both take more than this script itself,
which the system counts for what it starts. The script ends with status 1 where factorc takes longer than wat2wasm, or more than 30
bytes for each byte.
"""

import os
import shutil
import sys
import tempfile

import model
import speed

WORDS = 10_000
# Two files by which memory is told: the smaller one takes more than this script, and the larger one is as long as a source may be.
WORDS_FOR_MEMORY = (40_000, 80_000)
MOST_BYTES_A_BYTE = 30.0

# The body of a function in each language: the first two call none, and each other one calls the two before it.
FACTOR = [": w{k} ( x -- y ) 1 + 2 * 3 - 4 + 5 * ;", ": w{k} ( x -- y ) w{a} 1 + 2 * 3 - w{b} 5 + ;"]
WAT = [
    "(func $w{k} (param i64) (result i64) local.get 0 i64.const 1 i64.add i64.const 2 i64.mul i64.const 3 i64.sub i64.const 4 i64.add"
    " i64.const 5 i64.mul)",
    "(func $w{k} (param i64) (result i64) local.get 0 call $w{a} i64.const 1 i64.add i64.const 2 i64.mul i64.const 3 i64.sub call $w{b}"
    " i64.const 5 i64.add)",
]
LUA = [
    "function w{k}(x) return (((x + 1) * 2 - 3) + 4) * 5 end",
    "function w{k}(x) return w{b}((w{a}(x) + 1) * 2 - 3) + 5 end",
]


def functions(forms, count):
    """So many functions, a line each."""
    return [forms[k > 1].format(k=k, a=k - 1, b=k - 2) for k in range(count)]


def factor_source(count):
    """The words, and one item."""
    return ["USING: math ;", *functions(FACTOR, count), "1"]


def measure(words, lines, folder):
    """The bytes of a file of these lines, the shortest time of several runs of these words on it, and the greatest peak in KiB."""
    path = os.path.join(folder, "source")
    with open(path, "w", encoding="ascii") as file:
        file.write("\n".join(lines) + "\n")
    runs = [speed.run_once([*words, path], folder) for _ in range(speed.RUNS)]
    if any(status != 0 for _, _, status, _, _ in runs):
        sys.exit(f"{words[0]} fails: {runs[0][4][:200]!r}")
    return os.path.getsize(path), min(run[0] for run in runs), max(run[1] for run in runs)


def others():
    """What reads the same functions in other languages: its name, the words that run it, and the lines of its file."""
    return [
        ("wat2wasm", ["wat2wasm", "--output=/dev/null"], ["(module", *functions(WAT, WORDS), ")"]),
        ("luac", ["luac5.4" if shutil.which("luac5.4") else "luac", "-p"], functions(LUA, WORDS)),
    ]


def main():
    program = speed.program_or(speed.DEFAULT)
    words = [program, "check" if "check" in model.BUILT else "run"]
    failed = []
    with tempfile.TemporaryDirectory() as folder:
        length, own, _ = measure(words, factor_source(WORDS), folder)
        (short, _, peak), (long, _, higher) = (measure(words, factor_source(count), folder) for count in WORDS_FOR_MEMORY)
        per_byte = (higher - peak) * 1024 / (long - short)
        print(f"{'factorc':<10}{length:>10} bytes{own:>10.3f} s, {per_byte:.1f} bytes of memory for each byte")
        if per_byte > MOST_BYTES_A_BYTE:
            failed.append(f"memory: {per_byte:.1f} bytes for each byte of source, more than {MOST_BYTES_A_BYTE:g}")
        for name, other, lines in others():
            path = shutil.which(other[0])
            if path is None:
                print(f"{name:<10}{'not installed':>16}")
                continue
            length, seconds, _ = measure([path, *other[1:]], lines, folder)
            print(f"{name:<10}{length:>10} bytes{seconds:>10.3f} s, factorc takes {own / seconds:.2f} times as long")
            if name == "wat2wasm" and own > seconds:
                failed.append(f"wat2wasm: factorc takes {own / seconds:.2f} times as long")
    return speed.finish(failed)


if __name__ == "__main__":
    sys.exit(main())
