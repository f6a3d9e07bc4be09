#!/usr/bin/env python3
"""Tries the edits that the prover must refuse and that the gate leaves out, those of bench/edits/CRATE/.

    python3 bench/edits.py [--seed-from CLONE] [CRATE ..]     tries those of these crates (none: of all)
    python3 bench/edits.py --list [CRATE ..]                  a line for each edit, the gate's too, in a second and without any proof

The gate tries those of crates/CRATE/must-fail/. Each file of both places has the same form, and its name says what the edit would do.

Edits are tried on a copy of the repository as it stands, in which those of bench/edits/ stand in the crates' folders `must-fail` in place of
the gate's, by `rt must-fail CRATE ..`. That proves each of these crates once, and begins with what `rt check` kept on this machine; with
--seed-from the libraries come from a clone in which the gate ran over the same files, as `bench/kept.py` brings them. At the end stands
which edits were refused, which weren't, which are bad and which weren't tried.

With --list an edit is bad where it can't be applied: where an old text doesn't stand exactly once in its file, or where no file is there.
Ends with status 1 where there is any edit that isn't refused, or with --list any that is bad.
"""
import argparse
import pathlib
import re
import shutil
import subprocess
import sys
import tempfile

ROOT = pathlib.Path(__file__).resolve().parent.parent

# What rt says of an edit.
SAID = re.compile(r"rt: must-fail (\w+)/(\S+)\.edit: (refused|NOT REFUSED|BAD EDIT|NOT TRIED)")


def crates():
    """The names of the crates."""
    return sorted(it.name for it in (ROOT / "crates").iterdir() if it.is_dir())


def of_gate(crate):
    """The edits of a crate that the gate tries."""
    return sorted((ROOT / "crates" / crate / "must-fail").glob("*.edit"))


def by_hand(crate):
    """The edits of a crate that are tried by hand."""
    return sorted((ROOT / "bench/edits" / crate).glob("*.edit"))


def name_of(edit):
    """An edit's crate and its name."""
    return edit.parts[-3] if edit.parent.name == "must-fail" else edit.parent.name, edit.stem


def fault_of(edit):
    """What keeps an edit from being applied, or None."""
    folder, texts, path, old, changes = ROOT / "crates" / name_of(edit)[0], {}, None, None, 0
    for line in edit.read_text(encoding="utf-8").split("\n"):
        if line.startswith("file: "):
            path = line.removeprefix("file: ").strip()
            if not (folder / path).is_file():
                return f"there is no file {path}"
            texts.setdefault(path, (folder / path).read_text(encoding="utf-8"))
        elif line.startswith("old: "):
            old = line.removeprefix("old: ")
        elif line.startswith("new:"):
            if path is None or not old:
                return "a new text stands before its file or its old text"
            new, found = line.removeprefix("new:").removeprefix(" "), texts[path].count(old)
            if found != 1:
                return f"an old text stands {found} times in {path}"
            texts[path] = texts[path].replace(old, new)
            old, changes = None, changes + (old != new)
        elif line:
            return f"a line is neither a file nor an old or a new text: {line[:60]}"
    return None if changes else "it changes nothing"


def listed(chosen):
    """Writes a line for each edit of these crates, and gives how many are bad."""
    bad = {False: 0, True: 0}
    for crate in chosen:
        edits = [(it, False) for it in of_gate(crate)] + [(it, True) for it in by_hand(crate)]
        for edit, is_by_hand in sorted(edits, key=lambda it: it[0].name):
            why = fault_of(edit)
            bad[is_by_hand] += why is not None
            said = name_of(edit)[1].replace("_", " ") + (f": BAD, {why}" if why else "")
            print(f"{crate:16} {'by hand' if is_by_hand else 'gate':8} {said}")
    for is_by_hand, place in ((False, "tried by the gate"), (True, "tried by hand")):
        counts = [len((by_hand if is_by_hand else of_gate)(it)) for it in chosen]
        print(f"{sum(counts)} {place}, in {sum(map(bool, counts))} crates; {bad[is_by_hand]} of them bad")
    return sum(bad.values())


def copied(room, edits):
    """Makes the copy in which these edits are tried."""
    shutil.copytree(ROOT, room, ignore=shutil.ignore_patterns(".git", "out", "__pycache__"))
    for crate in {name_of(it)[0] for it in edits}:
        shutil.rmtree(room / "crates" / crate / "must-fail", ignore_errors=True)
        (room / "crates" / crate / "must-fail").mkdir()
    for edit in edits:
        shutil.copy(edit, room / "crates" / name_of(edit)[0] / "must-fail")


def tried(edits, seed_from):
    """What rt says of each of these edits, by its crate and its name; what it says is written as it comes."""
    said = {}
    with tempfile.TemporaryDirectory(prefix="factorc-edits-") as room:
        room = pathlib.Path(room) / "repository"
        copied(room, edits)
        if seed_from:
            subprocess.run([sys.executable, "bench/kept.py", "--seed-from", seed_from], cwd=room, check=True)
        words = ["rt", "must-fail", *sorted({name_of(it)[0] for it in edits})]
        how = {"stdin": subprocess.DEVNULL, "stdout": subprocess.PIPE, "stderr": subprocess.STDOUT, "text": True, "errors": "replace"}
        with subprocess.Popen(words, cwd=room, **how) as ran:
            for line in ran.stdout:
                print(line, end="", flush=True)
                found = SAID.match(line)
                if found:
                    said[found[1], found[2]] = found[3]
    return said


def told(edits, bad, said):
    """Writes which edits were refused and which weren't, and gives how many weren't."""
    groups = {"refused": [], "NOT REFUSED": [], "BAD EDIT": [], "NOT TRIED": []}
    for edit in edits:
        groups["BAD EDIT" if edit in bad else said.get(name_of(edit), "NOT TRIED")].append(edit)
    for verdict, label in (("refused", "refused"), ("NOT REFUSED", "not refused"), ("BAD EDIT", "bad"), ("NOT TRIED", "not tried")):
        print(f"\n{len(groups[verdict])} {label}")
        for edit in groups[verdict]:
            print(f"    {'/'.join(name_of(edit))}{': ' + bad[edit] if edit in bad else ''}")
    return len(edits) - len(groups["refused"])


def main():
    """Does what the words of the command line say."""
    parser = argparse.ArgumentParser(description="The edits that are tried by hand.")
    parser.add_argument("crates", nargs="*", metavar="CRATE")
    parser.add_argument("--list", action="store_true")
    parser.add_argument("--seed-from", metavar="CLONE", type=lambda it: str(pathlib.Path(it).resolve()))
    words = parser.parse_args()
    unknown = [it for it in words.crates if it not in crates()]
    if unknown:
        parser.error(f"there is no crate {unknown[0]}")
    chosen = sorted({*words.crates}) or crates()
    if words.list:
        return 1 if listed(chosen) else 0
    edits = [it for crate in chosen for it in by_hand(crate)]
    if not edits:
        print("bench/edits has none of these crates")
        return 0
    bad = {it: why for it in edits for why in [fault_of(it)] if why}
    whole = [it for it in edits if it not in bad]
    return 1 if told(edits, bad, tried(whole, words.seed_from) if whole else {}) else 0


if __name__ == "__main__":
    sys.exit(main())
