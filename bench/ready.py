#!/usr/bin/env python3
"""Lists in a minute what the gate would refuse before any proof, and what it shouldn't be given:

- crates whose files aren't in the layout of `rt fmt`;
- edits that can't be applied, since an old text doesn't stand exactly once in its file or since no file is there, both of those that
  the gate tries and of those of bench/edits/;
- more edits for the gate, or in more crates, than docs/PROVING.md grants it;
- documents that don't fit the repository: docs/MAP.md, docs/WORDS.md, what is written of editors/ and the stored run of crates/factorc_library aren't what
  their scripts write, a row of docs/ARCHITECTURE.md misses a file, a line is longer than 160 characters.

Ends with status 1 where there is any.

    python3 bench/ready.py
"""
import pathlib
import shutil
import subprocess
import sys
import tempfile

from edits import ROOT, by_hand, crates, fault_of, of_gate

# The gate tries at most so many edits, in at most so many crates.
MOST_EDITS, MOST_CRATES = 40, 12

# A line of a document has at most so many characters.
MOST_CHARACTERS = 160


def out_of_layout(crate, room):
    """The files of a crate that `rt fmt` changes, tried on a copy in a folder that has the repository's crates.txt."""
    copied = room / "crates" / crate
    shutil.copytree(ROOT / "crates" / crate, copied, ignore=shutil.ignore_patterns("out"))
    ran = subprocess.run(["rt", "fmt"], cwd=copied, stdin=subprocess.DEVNULL, capture_output=True, text=True, errors="replace")
    said = [it.removeprefix("rt: formatted ") for it in (ran.stdout + ran.stderr).split("\n") if it.startswith("rt: formatted ")]
    return said or (["what rt fmt can't read"] if ran.returncode else [])


def too_many():
    """What the gate has too much of."""
    counts = [len(of_gate(it)) for it in crates()]
    found = [(sum(counts), MOST_EDITS, "must-fail edits"), (sum(map(bool, counts)), MOST_CRATES, "crates with must-fail edits")]
    return [f"the gate has {much} {of}, and at most {most} are granted" for much, most, of in found if much > most]


def documents():
    """What the documents have wrong."""
    faults = []
    for script in (["map.py", "--check"], ["words.py", "--check"], ["editors.py", "--check"], ["library.py", "--check"], ["rows.py"]):
        ran = subprocess.run([sys.executable, str(ROOT / "bench" / script[0]), *script[1:]], capture_output=True, text=True, errors="replace")
        if ran.returncode:
            said = (ran.stdout + ran.stderr).strip().split("\n")
            faults += [f"bench/{' '.join(script)}: {it}" for it in said]
    for page in [ROOT / "README.md", *sorted((ROOT / "docs").glob("*.md")), *sorted((ROOT / "examples").glob("*.md"))]:
        lines = page.read_text(encoding="utf-8").split("\n")
        faults += [f"{page.relative_to(ROOT)}:{at}: {len(it)} characters" for at, it in enumerate(lines, 1) if len(it) > MOST_CHARACTERS]
    return faults


def main():
    """Looks at all of it."""
    faults = too_many() + documents()
    strangers = [it for it in sorted((ROOT / "bench/edits").iterdir()) if it.name not in crates()]
    faults += [f"{it.relative_to(ROOT)}: there is no such crate" for it in strangers]
    with tempfile.TemporaryDirectory() as room:
        room = pathlib.Path(room)
        shutil.copy(ROOT / "crates.txt", room)
        for crate in crates():
            faults += [f"{crate}/{it} isn't in the layout" for it in out_of_layout(crate, room)]
            faults += [f"{it.relative_to(ROOT)}: {why}" for it in of_gate(crate) + by_hand(crate) for why in [fault_of(it)] if why]
    print(*faults, f"{len(faults)} found", sep="\n")
    return 1 if faults else 0


if __name__ == "__main__":
    sys.exit(main())
