#!/usr/bin/env python3
"""Measures how many times as fast several workers make factorc.

    python3 bench/workers.py COUNT=PROGRAM [COUNT=PROGRAM ..] [--runs N] [--part K]
    python3 bench/workers.py --build FOLDER [COUNT ..]

Each PROGRAM is a built factorc with COUNT workers. The second form builds one for each COUNT, by default for 1, 2 and 4, as FOLDER/factorc-COUNT: from
a copy of the sources in which crates/fac_program has that number, and without any proof, as bench/unproved.py does. bench/speed.py and
bench/readers.py take such a program too.

Each program checks and builds 10,000 words, 10,000 words with nested quotations, and twenty vocabularies of 4 MiB in twenty files. Of N runs, 5 by
default, the shortest is told: the time by the clock and that of the processors, which are more than one's where threads ran beside one another. Then
comes how many times as fast it was by the clock as the first program, and the share that can't have been parallel if the rest was so in full. With
`--part K` each source has a K-th of its size, to try the script. It ends with status 1 where a run answers wrongly, or two programs build images that
differ.
"""

import argparse
import os
import re
import shutil
import subprocess
import sys
import tempfile
import time

import model
import speed

TOP = os.path.realpath(os.path.join(os.path.dirname(os.path.abspath(__file__)), ".."))
FILES = 20
WORDS = 10_000


def small_words(folder, part):
    """Words of some items each."""
    path = os.path.join(folder, "small")
    speed.small_words(path, WORDS // part)
    return [path]


def nested_quotations(folder, part):
    """Words with quotations in quotations."""
    path = os.path.join(folder, "nested")
    speed.nested_quotations(path, WORDS // part)
    return [path]


def vocabularies(folder, part):
    """Twenty files with a vocabulary each, of as many bytes as all files may have."""
    most = model.MOST_BYTES // part // FILES
    paths = [os.path.join(folder, f"vocabulary-{number}") for number in range(FILES)]
    for number, path in enumerate(paths):
        lines, length, count = [b"USING: kernel math ; IN: v%d\n" % number], 40, 0
        while length < most - 80:
            lines.append(b": word-%d ( x -- y ) dup * 3 + dup drop [ 7 - ] call ;\n" % count)
            length += len(lines[-1])
            count += 1
        with open(path, "wb") as file:
            file.writelines(lines)
    return paths


SOURCES = [("10,000 words", small_words), ("nested quotations", nested_quotations), ("twenty files", vocabularies)]


def run(words, folder):
    """The time of a run by the clock, and that of the processors."""
    null = os.open(os.devnull, os.O_WRONLY)
    before = time.perf_counter()
    child = os.posix_spawn(words[0], words, os.environ, file_actions=[(os.POSIX_SPAWN_DUP2, null, 1)])
    _, ended, used = os.wait4(child, 0)
    seconds = time.perf_counter() - before
    os.close(null)
    if ended != 0:
        sys.exit(f"{words[0]} {words[1]} in {folder} ends with {ended}")
    return seconds, used.ru_utime + used.ru_stime


def measure(programs, words, runs, folder):
    """Prints what runs with these words take, by each program."""
    first, few = None, None
    for count, program in programs:
        seconds, used = min(run([program, *words], folder) for _ in range(runs))
        told = f"  {count:>3} workers {seconds:>9.3f} s {used:>9.3f} s of processors"
        if first is None:
            first, few = seconds, count
        elif count > few:
            times, many = first / seconds, count / few
            told += f"  {times:.2f} times as fast, {max(0.0, (many / times - 1) / (many - 1)):.2f} serial"
        print(told, flush=True)


def images_differ(programs, paths, folder):
    """Whether two programs build other images of these files."""
    images = []
    for _, program in programs:
        image = os.path.join(folder, "image")
        run([program, "build", *paths, "-o", image], folder)
        with open(image, "rb") as file:
            images.append(file.read())
    return any(image != images[0] for image in images)


def build(folder, counts):
    """Builds a program for each number of workers."""
    os.makedirs(folder, exist_ok=True)
    for count in counts:
        with tempfile.TemporaryDirectory() as scratch:
            copy = os.path.join(scratch, "sources")
            shutil.copytree(TOP, copy, ignore=shutil.ignore_patterns(".git", "out", "must-fail", "edits"))
            path = os.path.join(copy, "crates", "fac_program", "src", "lib.rt")
            with open(path, encoding="utf-8") as file:
                text, found = re.subn(r"(const WORKERS: u32 =) \d+;", rf"\g<1> {count};", file.read())
            if found != 1:
                sys.exit("crates/fac_program has no number of workers")
            with open(path, "w", encoding="utf-8") as file:
                file.write(text)
            made = os.path.join(os.path.abspath(folder), f"factorc-{count}")
            subprocess.run([sys.executable, os.path.join(copy, "bench", "unproved.py"), "factorc", made], stdin=subprocess.DEVNULL, check=True)
        print(made, flush=True)


def arguments():
    """The words of the command line."""
    parser = argparse.ArgumentParser(description="Measures how many times as fast several workers make factorc.")
    parser.add_argument("words", nargs="*", metavar="COUNT=PROGRAM")
    parser.add_argument("--build", metavar="FOLDER")
    parser.add_argument("--runs", type=int, default=speed.RUNS)
    parser.add_argument("--part", type=int, default=1, metavar="K")
    return parser.parse_args()


def main():
    words = arguments()
    if words.build is not None:
        build(words.build, [int(count) for count in words.words or (1, 2, 4)])
        return 0
    programs = [(int(count), speed.built(path)) for count, path in (word.split("=", 1) for word in words.words)]
    failed = []
    with tempfile.TemporaryDirectory() as folder:
        for name, make in SOURCES:
            paths = make(folder, words.part)
            image = os.path.join(folder, "image")
            for command, behind in (("check", []), ("build", ["-o", image])):
                print(f"{name}, {command}")
                measure(programs, [command, *paths, *behind], words.runs, folder)
            if images_differ(programs, paths, folder):
                failed.append(f"{name}: two programs build images that differ")
    return speed.finish(failed)


if __name__ == "__main__":
    sys.exit(main())
