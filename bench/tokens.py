#!/usr/bin/env python3
"""Measures fac_token on large files, and checks that its time stays near linear.

    python3 bench/tokens.py [PROGRAM]

PROGRAM is the built program that counts tokens, by default crates/fac_count/out/fac_count, which `rt run -- data/a.factor` in
crates/fac_count builds. The script makes files of four sorts in two sizes, counts the tokens of each several times, and prints the
shortest time, the bytes per second in it and the greatest peak of memory. It ends with status 1 where a count is wrong or the larger
file, which is four times the smaller, takes more than five times as long.
"""

import os
import sys
import tempfile

import speed

SMALL = 1 << 22
LARGE = 1 << 24

DEFAULT = os.path.join(os.path.dirname(os.path.abspath(__file__)), "..", "crates", "fac_count", "out", "fac_count")


def write_source(path, head, unit, tail, size):
    """Writes a file of exactly this size: the head, as many units as there is room for, the tail and newlines. Gives the number of
    units. It writes in pieces, so that this script stays small."""
    count = (size - len(head) - len(tail)) // len(unit)
    with open(path, "wb") as file:
        file.write(head)
        for first in range(0, count, 1024):
            file.write(unit * min(1024, count - first))
        file.write(tail)
        file.write(b"\n" * (size - file.tell()))
    return count


def counted(number):
    """The status, the output and the note where so many tokens are counted."""
    return 0, b"%d\n" % number, b""


def short_tokens(path, size):
    """Tokens of one character."""
    return counted(write_source(path, b"", b"a ", b"", size))


def one_token(path, size):
    """One plain token."""
    write_source(path, b"", b"a", b"", size)
    return counted(1)


def escapes(path, size):
    """One string of escapes."""
    write_source(path, b'"', b'\\n\\"', b'"', size)
    return counted(1)


def comments(path, size):
    """Comments of some forty characters, with characters of two bytes in them."""
    write_source(path, b"", "! a comment with a quote \" and an é in it\n".encode(), b"", size)
    return counted(0)


SORTS = [("short tokens", short_tokens), ("one token", one_token), ("string of escapes", escapes), ("comments", comments)]


def main():
    program = speed.program_or(DEFAULT)
    print(f"{'file':<20}{'size':>8}{'shortest':>12}{'bytes per second':>20}{'peak memory':>14}")
    failed = []
    with tempfile.TemporaryDirectory() as folder:
        for name, make in SORTS:
            shortest = []
            for size in (SMALL, LARGE):
                length, times, peak = speed.measure([program], make, size, folder)
                least = min(times)
                shortest.append(least)
                print(f"{name:<20}{speed.mebibytes(size):>8}{least:>10.3f} s{length / least:>20,.0f}{peak / 1024:>10.1f} MiB")
            speed.compare(name, shortest, failed)
    return speed.finish(failed)


if __name__ == "__main__":
    sys.exit(main())
