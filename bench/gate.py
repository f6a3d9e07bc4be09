#!/usr/bin/env python3
"""Measures the gate: runs `rt ci` at the top of the repository, and tells at the end the processor minutes that each crate's proof, its
tests and its must-fail edits took.

    python3 bench/gate.py --anew --write docs/GATE.md >gate.log 2>&1

Each word but --write and the file behind it goes to `rt ci`. A toolchain whose `rt ci` keeps what passed takes --anew, and then proves and
tries everything from nothing; one that keeps nothing does so each time and takes no word. With --write the file gets a page with the
table, where the gate passed and nothing of it was kept from an earlier run; otherwise it stays as it is. Run it on a machine that does
nothing else: beside other work every figure is up to twice as large.

The times are those of the prover's own processes, read five times a second from /proc. What the rest took (linking, and the tests and
programs themselves) stands in a line of its own: it is the difference to what the system counted for all of them.
"""
import argparse
import os
import pathlib
import re
import resource
import subprocess
import sys
import threading
import time

ROOT = pathlib.Path(__file__).resolve().parent.parent
KINDS = ("proof", "tests", "edits")
TICKS = os.sysconf("SC_CLK_TCK")

PAGE = """# What the gate takes

Processor minutes of each crate from nothing: its proof, its tests, and its must-fail edits. "The gate" in `docs/PROVING.md` says what
decides them, and how much they may be together. This page is written by

    python3 bench/gate.py --anew --write docs/GATE.md
"""


def processes():
    """For each process its parent, when it began, and the seconds of processor time that it has used."""
    found = {}
    for name in os.listdir("/proc"):
        if not name.isdigit():
            continue
        try:
            with open(f"/proc/{name}/stat", encoding="utf-8", errors="replace") as file:
                fields = file.read().rpartition(")")[2].split()
        except OSError:
            continue
        found[int(name)] = (int(fields[1]), int(fields[19]), (int(fields[11]) + int(fields[12])) / TICKS)
    return found


def is_below(pid, top, found):
    """Whether a process was started by another one, or by one that this one started."""
    while pid in found and pid != top:
        pid = found[pid][0]
    return pid == top


def work_of(pid):
    """The crate and the kind of work of a process of the prover, or None."""
    try:
        with open(f"/proc/{pid}/cmdline", encoding="utf-8", errors="replace") as file:
            words = file.read().split("\0")
        folder = os.readlink(f"/proc/{pid}/cwd")
    except OSError:
        return None
    if os.path.basename(words[0]) != "rattle" or "--crate-name" not in words:
        return None
    crate = words[words.index("--crate-name") + 1]
    if "/rt-edit" in folder:
        return crate, "edits"
    return crate, "tests" if "--test" in words else "proof"


def watch(top, seen, ended):
    """Keeps for each process of the prover below another one its work and the time that it has used so far."""
    while not ended.wait(0.2):
        found = processes()
        for pid, (_, began, used) in found.items():
            if not is_below(pid, top, found):
                continue
            work = work_of(pid) or seen.get((pid, began), (None,))[0]
            if work:
                seen[pid, began] = (work, used)


class Log:
    """What the gate said of itself: how much passed and failed, its edits, and whether all of it was done in this run."""

    def __init__(self):
        self.passed, self.failed, self.refused, self.is_whole, self.crates = None, None, 0, True, set()

    def take(self, line):
        """Takes a line."""
        edit = re.match(r"rt: must-fail (\w+)/\S+: refused", line)
        ended = re.match(r"(\d+) passed, (\d+) failed(.*)", line)
        if edit:
            self.refused += 1
            self.crates.add(edit[1])
        elif ended:
            self.passed, self.failed = int(ended[1]), int(ended[2])
        if "not the gate" in line or re.search(r"\bearlier runs?\b", line):
            self.is_whole = False


def run(words, seen):
    """Runs the gate, and gives its status and what it said, which is written as it comes."""
    log, ended = Log(), threading.Event()
    how = {"stdin": subprocess.DEVNULL, "stdout": subprocess.PIPE, "stderr": subprocess.STDOUT, "text": True, "errors": "replace"}
    with subprocess.Popen(["rt", "ci", *words], cwd=ROOT, **how) as child:
        watcher = threading.Thread(target=watch, args=(child.pid, seen, ended))
        watcher.start()
        for line in child.stdout:
            print(line, end="", flush=True)
            log.take(line)
        status = child.wait()
        ended.set()
        watcher.join()
    return status, log


def table(seen, whole):
    """The table of the crates, of which the dearest comes first. The whole is what the system counted, in minutes."""
    sums = {}
    for (crate, kind), used in seen.values():
        sums.setdefault(crate, dict.fromkeys(KINDS, 0.0))[kind] += used / 60
    lines = ["| Crate | Proof | Tests | Edits | Together |", "|---|---|---|---|---|"]
    for crate, row in sorted(sums.items(), key=lambda it: -sum(it[1].values())):
        lines.append(f"| `{crate}` | " + " | ".join(f"{row[kind]:.1f}" for kind in KINDS) + f" | {sum(row.values()):.1f} |")
    columns = [sum(row[kind] for row in sums.values()) for kind in KINDS]
    lines.append(f"| linking, and what the tests and programs took themselves | | | | {max(0.0, whole - sum(columns)):.1f} |")
    lines.append("| **together** | " + " | ".join(f"{it:.1f}" for it in columns) + f" | **{max(whole, sum(columns)):.1f}** |")
    return "\n".join(lines)


def summary(log, minutes):
    """What stands under the table."""
    version = subprocess.run(["rt", "version"], stdout=subprocess.PIPE, text=True, check=False).stdout.strip()
    counts = "it ended without its last line" if log.passed is None else f"{log.passed} passed, {log.failed} failed"
    edits = f"{log.refused} must-fail edits in {len(log.crates)} crates were refused"
    return f"In {minutes:.1f} minutes on {os.cpu_count()} processors, by `{version}`: {counts}. {edits}."


def main():
    """Does what the words of the command line say."""
    parser = argparse.ArgumentParser(description="Measures the gate.", allow_abbrev=False)
    parser.add_argument("--write", metavar="FILE", type=lambda it: pathlib.Path(it).resolve())
    words, for_gate = parser.parse_known_args()
    began, seen = time.monotonic(), {}
    status, log = run(for_gate, seen)
    minutes, used = (time.monotonic() - began) / 60, resource.getrusage(resource.RUSAGE_CHILDREN)
    told = table(seen, (used.ru_utime + used.ru_stime) / 60) + "\n\n" + summary(log, minutes)
    print("\n" + told)
    if words.write and status:
        print(f"The gate didn't pass, so {words.write} stays as it is.")
    elif words.write and not log.is_whole:
        print(f"Not all of the gate was done in this run, so {words.write} stays as it is.")
        return 1
    elif words.write:
        words.write.write_text(f"{PAGE}\n{told}\n", encoding="utf-8")
    return status


if __name__ == "__main__":
    sys.exit(main())
