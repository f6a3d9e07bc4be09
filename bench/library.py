#!/usr/bin/env python3
"""Measures the words of lib/ beside CPython, and tells whether their cost stays near linear.

    python3 bench/library.py [PROGRAM] [NAME ..]
    python3 bench/library.py --run              writes the stored run of crates/factorc_library: all files, with their tests
    python3 bench/library.py --check            ends with status 1 where it isn't what would be written

PROGRAM is the built program, by default crates/factorc/out/factorc, and the names those of the measured words, by default all. Each is run with n
and with 4 n, and so is a program of CPython that does the same by a function or a class of its own library. It prints how many instructions of the
processor one of n takes, by valgrind's callgrind, without those of a program that does nothing behind the same files; how many times as many 4 n
take; and how many times as many as CPython's. It ends with status 1 where an answer is wrong, and where 4 n take more than 5 times as many, of
heaps and sorts 6 times.

`needs_of` gives the files of the library that a file needs before it, as its first lines say; examples/check.py asks for them.
"""

import os
import pathlib
import re
import subprocess
import sys
import tempfile

import speed
import words

ROOT = pathlib.Path(__file__).resolve().parent.parent

MOST_RATIO = 5.0
MOST_RATIO_OF_HEAPS = 6.0

HEAD = re.compile(r"It needs (.*?) before it")
FILE = re.compile(r"`lib/(\w+)\.factor`")


def needs_of(path):
    """The names of the files of the library that the file at this path, from the top, needs before it, in an order that serves."""
    first = (ROOT / path).read_text(encoding="utf-8").partition("\n\n")[0]
    told = HEAD.search(" ".join(line.lstrip("! ") for line in first.split("\n")))
    return FILE.findall(told[1]) if told else []


def with_needs(name):
    """The names of all files of the library that this one needs, and its own."""
    return [*needs_of(f"lib/{name}.factor"), name]


def stored_run():
    """What the program of all files of the library is run with, each test behind the file that it tests, and what it writes."""
    names = [each for name in words.LIBRARY for each in ([name, "unicode"] if name == "text" else [name])]
    files = [f"{name}{part}.factor" for name in names for part in ("", "-tests")]
    lib = ROOT / "lib"
    return {
        "args": "".join(f"{word}\n" for word in ["run", "--steps", "200000000", *files]).encode(),
        "stdin": (lib / "io-tests.in").read_bytes(),
        "stdout": b"".join((lib / f"{name}-tests.out").read_bytes() for name in names),
    }


# The files, how many, the source with N for that, the same in CPython, and what both print.
MEASURED = {
    "push": (
        "vectors", 20_000,
        "USING: kernel prettyprint sequences vectors ; FROM: growable => length ; 0 <vector> N <iota> [ over push ] each length .",
        "v = []\ndef push(x): v.append(x)\nfor i in range(N): push(i)\nprint(len(v))",
        lambda n: n,
    ),
    "pop": (
        "vectors", 20_000,
        "USING: kernel math prettyprint sequences vectors ; N <iota> >vector 0 N [ over pop + ] times . drop",
        "v = list(range(N))\ns = 0\nfor i in range(N): s += v.pop()\nprint(s)",
        lambda n: n * (n - 1) // 2,
    ),
    "set-at, at": (
        "hashtables", 5_000,
        "USING: assocs hashtables kernel math prettyprint sequences ; 0 <hashtable> N <iota> [ dup sq pick set-at ] each\n"
        "0 swap N <iota> [ sq over at swap [ + ] dip ] each drop .",
        "h = {}\nfor i in range(N): h[i * i] = i\ns = 0\nfor i in range(N): s += h[i * i]\nprint(s)",
        lambda n: n * (n - 1) // 2,
    ),
    "inc-at of strings": (
        "hashtables", 5_000,
        "USING: assocs hashtables kernel math math.parser prettyprint sequences ;\n"
        "0 <hashtable> N <iota> [ 1000 mod number>string over inc-at ] each assoc-size .",
        "h = {}\nfor i in range(N):\n    s = str(i % 1000)\n    h[s] = h.get(s, 0) + 1\nprint(len(h))",
        lambda n: min(n, 1000),
    ),
    "delete-at": (
        "hashtables", 5_000,
        "USING: assocs hashtables kernel math prettyprint sequences ; 0 <hashtable> N <iota> [ dup pick set-at ] each\n"
        "N 1 - <iota> [ over delete-at ] each assoc-size .",
        "h = {}\nfor i in range(N): h[i] = i\nfor i in range(N - 1): del h[i]\nprint(len(h))",
        lambda n: 1,
    ),
    "members": (
        "sets", 5_000,
        "USING: math prettyprint sequences sets ; N <iota> [ 1000 mod ] map members length .",
        "print(len(set([i % 1000 for i in range(N)])))",
        lambda n: min(n, 1000),
    ),
    "heaps": (
        "heaps", 2_000,
        "USING: heaps kernel math prettyprint sequences ; <min-heap> N <iota> [ 7919 * 10007 mod dup pick heap-push ] each\n"
        "0 swap [ nip + ] slurp-heap .",
        "import heapq\nh = []\nfor i in range(N): heapq.heappush(h, (i * 7919 % 10007, i))\ns = 0\nwhile h: s += heapq.heappop(h)[0]\nprint(s)",
        lambda n: sum(i * 7919 % 10007 for i in range(n)),
    ),
    "dlists": (
        "dlists", 10_000,
        "USING: deques dlists kernel math prettyprint sequences ; <dlist> N <iota> over push-all-back 0 swap [ + ] slurp-deque .",
        "import collections\nd = collections.deque()\nfor i in range(N): d.append(i)\ns = 0\nwhile d: s += d.popleft()\nprint(s)",
        lambda n: n * (n - 1) // 2,
    ),
    "sort": (
        "sorting", 2_000,
        "USING: kernel math prettyprint sequences sorting ; N <iota> [ 7919 * 10007 mod ] map sort first .",
        "print(sorted([i * 7919 % 10007 for i in range(N)])[0])",
        lambda n: 0,
    ),
    ">string": (
        "text", 10_000,
        "USING: math prettyprint sequences strings ; N <iota> [ 26 mod 97 + ] map >string length .",
        "print(len(''.join([chr(i % 26 + 97) for i in range(N)])))",
        lambda n: n,
    ),
    ">upper": (
        "text", 10_000,
        'USING: ascii math prettyprint sequences strings ; N 97 <string> >upper 5 head .',
        "print('\"' + ('a' * N).upper()[:5] + '\"')",
        lambda n: '"AAAAA"',
    ),
    "split": (
        "text", 10_000,
        'USING: math prettyprint sequences splitting strings ; N 5 /i [ "four " ] replicate "" join " " split length .',
        "print(len(('four ' * (N // 5)).split(' ')))",
        lambda n: n // 5 + 1,
    ),
    "replace": (
        "text", 10_000,
        'USING: math prettyprint sequences splitting strings ; N 5 /i [ "four " ] replicate "" join "ou" "i" replace length .',
        "print(len(('four ' * (N // 5)).replace('ou', 'i')))",
        lambda n: n // 5 * 4,
    ),
    "random": (
        "random", 10_000,
        "USING: kernel math prettyprint random sequences ; 0 N [ 6 random 6 < [ 1 + ] when ] times .",
        "import random\nc = 0\nfor i in range(N):\n    if random.randrange(6) < 6: c += 1\nprint(c)",
        lambda n: n,
    ),
    "big+": (
        "bignums", 9_000,
        'USING: bignums kernel math prettyprint sequences ; N 9 /i [ "123456789" ] replicate "" join\n'
        "string>bignum dup big+ bignum>string length .",
        "import sys\nsys.set_int_max_str_digits(0)\nn = int('123456789' * (N // 9))\nprint(len(str(n + n)))",
        lambda n: n,
    ),
}


def counted(words, given, folder):
    """How many instructions these words take on this text, which stands in the file `source`, and what they print."""
    source, told = pathlib.Path(folder, "source"), pathlib.Path(folder, "told")
    source.write_text(given + "\n", encoding="utf-8")
    tool = ["valgrind", "--tool=callgrind", f"--callgrind-out-file={folder}/out", f"--log-file={told}"]
    ran = subprocess.run([*tool, *words, str(source)], capture_output=True, text=True, check=False)
    return int(re.search(r"Collected : (\d+)", told.read_text())[1]), ran.stdout.strip() + ran.stderr.strip()


def main():
    names = sys.argv[1:]
    if names in (["--run"], ["--check"]):
        stored = {ROOT / "crates/factorc_library" / name: text for name, text in stored_run().items()}
        wrong = [path for path, text in stored.items() if path.read_bytes() != text]
        if names == ["--check"]:
            return speed.finish([f"{path.relative_to(ROOT)} isn't what `python3 bench/library.py --run` writes" for path in wrong])
        for path in wrong:
            path.write_bytes(stored[path])
        return 0
    program = speed.built(names.pop(0) if names and os.path.sep in names[0] else speed.DEFAULT)
    python = ["python3", "-S", "-E"]
    failed = []
    print(f"{'':<20}{'n':>8}{'for one':>10}{'4 n':>8}{'times CPython':>16}")
    with tempfile.TemporaryDirectory() as folder:
        start = counted(python, "print(1)", folder)[0]
        for name in names or MEASURED:
            file, size, text, beside, wanted = MEASURED[name]
            words = [program, "run", *[str(ROOT / f"lib/{each}.factor") for each in with_needs(file)]]
            takes = []
            for n in (size, 4 * size):
                empty = counted(words, text[: text.index(" ;") + 2], folder)[0]
                took, told = counted(words, re.sub(r"\bN\b", str(n), text), folder)
                other, also = counted(python, re.sub(r"\bN\b", str(n), beside), folder)
                if not told == also == str(wanted(n)):
                    failed.append(f"{name}: {told!r} and {also!r}, and not {wanted(n)}")
                takes.append((took - empty, max(other - start, 1)))
            ratio = takes[1][0] / takes[0][0]
            most = MOST_RATIO_OF_HEAPS if name in ("heaps", "sort") else MOST_RATIO
            if ratio > most:
                failed.append(f"{name}: {ratio:.2f} times as many, more than {most:g}")
            print(f"{name:<20}{size:>8}{takes[1][0] / size / 4:>10.0f}{ratio:>8.2f}{takes[1][0] / takes[1][1]:>16.1f}", flush=True)
    return speed.finish(failed)


if __name__ == "__main__":
    sys.exit(main())
