#!/usr/bin/env python3
"""Writes lib/unicode.factor: texts of the characters that lib/text.factor makes strings of, in 256 code points each.

    python3 bench/unicode.py            writes it
    python3 bench/unicode.py --check    ends with status 1 where it isn't what would be written

It has every character from 1 to 65535, and those from 126976 to 130047, which are pictures. A source of at most 4,194,304 bytes has no room for all
1,112,064 characters, which take 4,382,592 bytes as UTF-8. 55296 to 57343 are no characters.
"""

import pathlib
import sys

WRITTEN = pathlib.Path(__file__).resolve().parent.parent / "lib/unicode.factor"

# The rows of 256 code points: those up to 65535 without the surrogates, and those of pictures.
ROWS = [*range(0xD8), *range(0xE0, 0x100), *range(0x1F0, 0x1FC)]
ESCAPES = {'"': '\\"', "\\": "\\\\", "\n": "\\n", "\t": "\\t", "\r": "\\r"}

HEAD = """\
! Characters of Unicode. It needs `lib/sequences.factor` and `lib/text.factor` before it, whose words make strings of them.
!
! `bench/unicode.py` writes this file: each line has the 256 code points from its number times 256 on. They are those from 1 to 65535 and
! from 126976 to 130047. The strings of a line are made when a program asks for the first one of them.

IN: strings.private
USE: sequences

! Keeps the text of 256 code points.
: (text) ( str n -- ) 1 (known-rows) set-nth ;

"""


def page():
    lines = []
    for row in ROWS:
        text = "".join(ESCAPES.get(chr(point), chr(point)) for point in range(max(row * 256, 1), row * 256 + 256))
        lines.append(f'"{text}" {row} (text)\n')
    return HEAD + "".join(lines)


def main():
    # No line ends but those that are written here, since the text has other ends of lines among its characters.
    text = page().encode()
    if sys.argv[1:] == ["--check"]:
        if not WRITTEN.exists() or WRITTEN.read_bytes() != text:
            sys.exit(f"unicode.py: {WRITTEN.name} isn't what `python3 bench/unicode.py` writes")
    else:
        WRITTEN.write_bytes(text)


if __name__ == "__main__":
    main()
