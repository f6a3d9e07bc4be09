#!/usr/bin/env python3
"""Runs the gate over what this script saw pass before on the same machine, by the sums of all that a task reads.

    python3 bench/kept.py [--proofs] [--lanes N] [NAME ..]     the gate for these crates and those below them (none: all of them)
    python3 bench/kept.py --seed                               puts kept libraries where `rt check` finds them
    python3 bench/kept.py --seed-from CLONE                    puts those there that a `rt ci` in that clone has built so far

All but the last is for toolchains whose `rt ci` proves everything from nothing each time, takes no names and keeps nothing. It runs the tasks of that
`rt ci` itself, the proof of each crate from nothing, its tests, each edit that must be refused and each program, and leaves out a task
that passed with the same files: those of the crate and of all below it, and of an edit its own. With `--proofs` no edits are tried. With
`--lanes` so many tasks run side by side, by default one a processor.

What it keeps lies in the folder that FACTORC_KEPT names, by default /tmp/factorc-kept, and serves every clone on the machine: what one
clone proved none proves again. `--seed` gives a clone the libraries that are kept, so that its first `rt check` builds none of them.
With `--seed-from` they come from a clone in which the gate runs or ran, of each crate with the same files and the same crates below it:
what `rt ci` proves serves no `rt check` by itself, which would prove all of it again.
The gate itself is a plain `rt ci`: run it on a clean clone before anything is handed in.
"""
import argparse
import hashlib
import importlib.machinery
import importlib.util
import os
import pickle
import shutil
import sys
import tempfile
import time
from concurrent.futures import FIRST_COMPLETED, ThreadPoolExecutor, wait

ROOT = os.path.abspath(os.path.join(os.path.dirname(os.path.abspath(__file__)), ".."))
KEPT = os.environ.get("FACTORC_KEPT", "/tmp/factorc-kept")


def loaded():
    """The toolchain's command, as a module."""
    sys.dont_write_bytecode = True
    path = os.path.realpath(shutil.which("rt"))
    loader = importlib.machinery.SourceFileLoader("rt", path)
    module = importlib.util.module_from_spec(importlib.util.spec_from_loader("rt", loader))
    sys.modules["rt"] = module
    loader.exec_module(module)
    return module


RT = loaded()


def remember_sums():
    """Has the sum of each crate's files made once in a run. The toolchain makes it anew for each way that leads from a crate down to another, and there are
    thousands of these. No file may change while this script runs."""
    made, kept = RT.rtlib.Crate.stamp, {}

    def stamp(self):
        if self.folder not in kept:
            kept[self.folder] = made(self)
        return kept[self.folder]

    RT.rtlib.Crate.stamp = stamp


remember_sums()


def place_of(kind, crate, *more):
    """Where what a task passed with is kept: by the sum of the crate and all below it, and of more."""
    parts = hashlib.sha256(crate.stamp().encode())
    for part in more:
        parts.update(part)
    return os.path.join(KEPT, f"{kind}-{parts.hexdigest()[:32]}")


def copy_all(source, target):
    """Copies what is in a folder into another one."""
    os.makedirs(target, exist_ok=True)
    for name in os.listdir(source):
        old, new = os.path.join(source, name), os.path.join(target, name)
        if os.path.isdir(old):
            shutil.copytree(old, new, dirs_exist_ok=True)
        else:
            shutil.copy2(old, new)


def keep(crate, kind, place):
    """Keeps what a passed proof or passed tests built."""
    made = tempfile.mkdtemp(dir=KEPT)
    ends = RT.BACKENDS.values() if kind == "proof" else ["_tests"]
    if kind == "proof" and os.path.isdir(f"{crate.folder}/out/rlib"):
        shutil.copytree(f"{crate.folder}/out/rlib", f"{made}/rlib")
    for name in [crate.name + end for end in ends]:
        if os.path.isfile(f"{crate.folder}/out/{name}"):
            shutil.copy2(f"{crate.folder}/out/{name}", made)
    try:
        os.rename(made, place)
    except OSError:
        shutil.rmtree(made)


def must_fail_all(crate, edits, flags):
    """Tries a crate's edits, each over what the checks before it kept, but for those that were refused before."""
    tried = {}
    left = []
    for edit in edits:
        with open(edit, "rb") as file:
            place = place_of("edit", crate, os.path.basename(edit).encode(), file.read())
        if os.path.exists(place):
            with open(place, "rb") as file:
                tried[edit] = pickle.load(file)
        else:
            left.append((edit, place))
    if left:
        with tempfile.TemporaryDirectory(prefix="rt-edits-") as folder:
            is_sound = not RT.checked(crate, {}, flags, folder).returncode
            for edit, place in left:
                found = RT.must_fail(crate, edit, flags, folder)
                if not (is_sound and found[0]):
                    found = RT.must_fail(crate, edit, flags)
                tried[edit] = found
                if found[0]:
                    with open(place, "wb") as file:
                        pickle.dump(found, file)
    return [tried[edit] for edit in edits]


def kept_call(crate, kind, call, with_edits):
    """A task that is left out where it passed before, and kept where it passes."""

    def run(given, jobs):
        if kind == "edits":
            return call(given, 1) if with_edits else ([], [], [])
        place = place_of(kind, crate)
        if os.path.isdir(place):
            copy_all(place, f"{crate.folder}/out")
            return True
        began = time.time()
        passed = call(given, jobs)
        if passed:
            keep(crate, kind, place)
            RT.say(f"{crate.name}: {kind} kept after {time.time() - began:.0f} s, at {time.strftime('%H:%M:%S')}")
        return passed

    return run


def in_lanes(tasks, crates, lanes, with_edits):
    """Runs tasks side by side, first those with the longest chain of others behind them, each once those it waits for have ended. A proof gets
    the lanes that no other task waits for."""

    def is_work(key):
        return key[1] == "proof" or (key[1] == "edits" and with_edits and bool(RT.edits_of(crates[key[0]])[0]))

    behind = {key: 0 for key in tasks}
    for key in reversed([*tasks]):
        behind[key] += tasks[key][1] * is_work(key)
        for below in tasks[key][0]:
            behind[below] = max(behind[below], behind[key])
    left, running, given = sorted(tasks, key=lambda key: -behind[key]), {}, {}
    with ThreadPoolExecutor(lanes) as pool:
        while left or running:
            ready = [key for key in left if all(below in given for below in tasks[key][0])]
            for key in ready:
                idle = lanes - sum(jobs for _, jobs in running.values())
                if idle > 0:
                    left.remove(key)
                    others = sum(1 for other in ready if other in left and is_work(other))
                    jobs = max(1, idle // (others + 1)) if key[1] == "proof" else 1
                    call = kept_call(crates[key[0]], key[1], tasks[key][3], with_edits)
                    running[pool.submit(call, given, jobs)] = key, jobs
            for ended in wait(running, return_when=FIRST_COMPLETED).done:
                given[running.pop(ended)[0]] = ended.result()
    return given


def gate(names, lanes, with_edits):
    """The gate for these crates and those below them, or for all."""
    crates_of, found = RT.crates_of, {}

    def wanted(root, aside):
        crates = crates_of(root, aside)
        chosen = [below for crate in crates if crate.name in names for below in [*crate.below(), crate]] if names else crates
        crates = [crate for crate in crates if crate in chosen]
        found.update({crate.name: crate for crate in crates})
        return crates

    RT.crates_of = wanted
    RT.must_fail_all = must_fail_all
    RT.in_lanes = lambda tasks: in_lanes(tasks, found, lanes or RT.processors(), with_edits)
    if names:
        RT.rtlib.stop_on_unread = lambda *given: None
    return RT.ci()


def seed():
    """Puts the kept libraries of the clone's crates where `rt check` finds them."""
    for crate in RT.rtlib.crates_below(ROOT):
        kept, made = f"{place_of('proof', crate)}/rlib", f"{crate.folder}/out/rlib"
        if os.path.isdir(kept) and not crate.is_built():
            shutil.rmtree(made, ignore_errors=True)
            shutil.copytree(kept, made)
            with open(f"{made}/stamp", "w", encoding="utf-8") as file:
                file.write(crate.stamp())
            print(f"{crate.name}: its library is kept")
    return 0


def seed_from(clone):
    """Puts the libraries that a run of the gate built in another clone where `rt check` finds them."""
    there = {crate.name: (crate.rlib, crate.stamp()) for crate in RT.rtlib.crates_below(clone)}
    for crate in RT.rtlib.crates_below(ROOT):
        built, stamp = there.get(crate.name, ("", ""))
        if os.path.isfile(f"{built}/format") and stamp == crate.stamp() and not crate.is_built():
            made = f"{crate.folder}/out/rlib"
            shutil.rmtree(made, ignore_errors=True)
            shutil.copytree(built, f"{made}/{os.path.basename(built)}")
            with open(f"{made}/stamp", "w", encoding="utf-8") as file:
                file.write(stamp)
            print(f"{crate.name}: its library is that of {clone}")
    return 0


def main():
    """Does what the words of the command line say."""
    parser = argparse.ArgumentParser(description="The gate over what passed before.")
    parser.add_argument("names", nargs="*")
    parser.add_argument("--proofs", action="store_true")
    parser.add_argument("--lanes", type=int, default=0)
    parser.add_argument("--seed", action="store_true")
    parser.add_argument("--seed-from", metavar="CLONE")
    words = parser.parse_args()
    os.chdir(ROOT)
    if words.seed_from:
        return seed_from(os.path.abspath(words.seed_from))
    os.makedirs(KEPT, exist_ok=True)
    return seed() if words.seed else gate(words.names, words.lanes, not words.proofs)


if __name__ == "__main__":
    sys.exit(main())
