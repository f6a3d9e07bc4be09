#!/usr/bin/env python3
"""Tells which functions of a crate took a check the most time.

    cd crates/fac_parse && rm -rf out/incremental && rt check --jobs 1 && cd ../..
    python3 bench/dearest.py fac_parse

The prover keeps a file for each module when it has ended with it. With one job it makes them one after another, so the time between two
files is what the later one took, as far as no other process took the processor. A function has some twenty modules: `Lts` is what grows
with the values that its returns drop, `Proof` what grows with its goals.
"""
import collections
import os
import pathlib
import re
import sys

ROOT = pathlib.Path(__file__).resolve().parent.parent

# The module's own name behind the path of its function.
PART = re.compile(r"^(Lts|Proof|Tie|Code|Met|Statement|Kinds|Carried|Answers|Invariants|Given|Goals|Reads|Layout|The\w+)(-|$)")


def times(folder):
    """The modules of the folder with the seconds that each took."""
    found = []
    for at, _, names in os.walk(folder):
        found += [(os.stat(f"{at}/{name}").st_mtime_ns / 1e9, name) for name in names if name.endswith(".oantt")]
    found.sort()
    return [(name, now - before) for (before, _), (now, name) in zip(found, found[1:])]


def function_of(name, crate):
    """The function of a module, and which part of it the module is."""
    name = name[: -len(".oantt")].removesuffix(".decls")
    if not name.startswith(f"Rattle-{crate}-proofs."):
        return "(definitions)", ""
    words = name[len(f"Rattle-{crate}-proofs.") :].split(".")
    own = [bool(PART.match(word)) for word in words] + [True]
    return ".".join(words[: own.index(True)]), words[own.index(True)].partition("-")[0] if True in own[:-1] else ""


def main():
    crate, most = sys.argv[1], int(sys.argv[2]) if len(sys.argv) > 2 else 30
    sums = collections.defaultdict(collections.Counter)
    for name, seconds in times(ROOT / "crates" / crate / "out/incremental"):
        function, part = function_of(name, crate)
        sums[function][part] += seconds
    print(f"{sum(sum(row.values()) for row in sums.values()):.1f} seconds\n\n| Seconds | Lts | Proof | Function |\n|---|---|---|---|")
    for function, row in sorted(sums.items(), key=lambda it: -sum(it[1].values()))[:most]:
        print(f"| {sum(row.values()):.1f} | {row['Lts']:.1f} | {row['Proof']:.1f} | `{function}` |")


if __name__ == "__main__":
    main()
