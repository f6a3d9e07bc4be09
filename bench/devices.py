#!/usr/bin/env python3
"""Lets each device of a run fail in turn, on programs made at random, beside the model of the language in bench/model.py.

    python3 bench/devices.py [CASES] [--programs N] [--most-ticks N] [--kinds NAME,NAME,..] [--seed S] [--jobs J]

CASES is the built program of crates/fac_cases, by default crates/fac_cases/out/fac_cases: it makes the calls over files and streams in memory, some
hundred in one process. Of the kinds of bench/compare.py, those that make runs, the script makes programs until so many of them, 2,000 by default, end
by themselves within the most ticks, 100 by default. Each is run, run with its stack written, checked, built and executed, where in turn fails

- each load and the save of each command, and each one behind them, which is then asked for in vain;
- each write of the output, with no byte taken, with one, and with all but one;
- each read of the input;
- the write of the note, with no byte taken and with one.

Status, ticks, what was asked for, what was taken of output and note, and what is left of the input have to be the model's: what bench/cases.py says of
devices that fail, where the model is asked with a budget of one tick, of two and so on. Of a program with many writes or reads some are taken. The same
seed S, 1 by default, gives the same programs. J processes share the work, as many as there are processors by default.

It ends with status 1 where an answer differs or a process is ended by a signal, and keeps the cases of such a batch in a folder.
"""
import argparse
import dataclasses
import io
import multiprocessing
import os
import random
import sys
import tempfile
from collections import Counter

import budgets
import cases
import model
import speed

CASES = os.path.join(os.path.dirname(os.path.abspath(__file__)), "..", "crates", "fac_cases", "out", "fac_cases")
MOST_TICKS = 100
MOST_FAILURES = 20
# The most writes, and the most reads, of a program that fail in turn.
MOST_PLACES = 8
ROOM = 4_000
BATCH = 200
NAMES = ["a", "b", "c", "d"]


class Program:
    """A program that was accepted, with its files by the names of NAMES, and its input. Its answers are kept by their ticks."""

    def __init__(self, case, most_ticks):
        files = model.read_words(case.words).files
        self.files = dict(zip(NAMES, (case.files[file] for file in files)))
        self.given = case.given
        names, definitions = model.program_of(list(self.files), list(self.files.values()))
        self.checked = model.Answer(model.DONE, "checked", output=f"checked {definitions} definitions\n")
        self.names = names
        self.kept = {}
        # Asked with a budget, a run stops there; so the last answer has its ticks.
        self.whole, _ = self.answer(most_ticks, ())

    def answer(self, ticks, reads):
        """The answer with so many ticks, None where one of these reads of the input fails, and the input as it is left then."""
        if (ticks, reads) not in self.kept:
            stream = cases.Input(self.given, reads)
            try:
                answer = model.answer_of_run(self.names, ticks, stream)
            except cases.InputFault:
                answer = None
            self.kept[ticks, reads] = answer, (stream.coming.read(), stream.held, stream.reads, stream.ended)
        return self.kept[ticks, reads]

    def answer_to(self, words, files, stream, ticks=None):
        """What cases.answer_of says of a call of this program."""
        name, asked = words[0], [word for word in words[1:] if not word.startswith("-")]
        saved = asked.pop() if name == "build" else None
        for file in asked:
            if file not in files:
                return model.Answer(model.FILE_FAULT, "file fault", f"file: {file}\n")
        if name == "build" and not files.save(saved, b""):
            return model.Answer(model.FILE_FAULT, "file fault", f"file: {saved}\n")
        if name in ("build", "check"):
            return self.checked if name == "check" else model.Answer(model.DONE, "built")
        answer, (coming, stream.held, stream.reads, stream.ended) = self.answer(self.whole.ticks if ticks is None else ticks, stream.fails)
        stream.coming = io.BytesIO(coming)
        if answer is not None and "--stack" in words and answer.status == model.DONE:
            return dataclasses.replace(answer, output=answer.output + "".join(text + "\n" for text in answer.stack))
        return answer

    def writes(self):
        """How many bytes each write of the run has."""
        outputs = [self.answer(ticks, ())[0].output.encode() for ticks in range(self.whole.ticks + 1)]
        sizes = [len(now) - len(before) for before, now in zip(outputs, outputs[1:])]
        return [size for size in sizes if size]

    def case(self, *calls):
        """A case of these calls."""
        case = cases.Case()
        case.words, *case.others = (call.split() for call in calls)
        case.given, case.sources, case.room = self.given, dict(self.files), ROOM
        case.reads = ()
        return case

    def cases(self, chance):
        """The cases in which a device fails, and some in which the one that is to fail isn't asked for."""
        names = " ".join(self.files)
        run, build = (f"run {names}",), (f"build {names} -o i", "exec i")
        for calls in (run, (f"run --stack {names}",), (f"check {names}",), build):
            for number in range(1, len(self.files) + 2 * len(calls)):
                case = self.case(*calls)
                case.fails = [number]
                yield case
        writes = self.writes()
        stack = sum(len(text.encode()) + 1 for text in self.whole.stack or [])
        for calls, sizes in ((run, writes), (build, writes), ((f"run --stack {names}",), writes + [stack] * (stack > 0)), ((f"check {names}",), [1])):
            for number in some(range(1, len(sizes) + 2), chance):
                size = sizes[number - 1] if number <= len(sizes) else 1
                for taken in sorted({0, 1, size - 1, size}):
                    case = self.case(*calls)
                    case.output = {number: taken}
                    yield case
        reads = self.answer(self.whole.ticks, ())[1][2]
        for calls in (run, build):
            for number in some(range(1, reads + 2), chance):
                case = self.case(*calls)
                case.reads = (number,)
                yield case
        for calls in (run, build):
            for taken in (0, 1):
                case = self.case(*calls)
                case.note = {1: taken}
                yield case


def some(places, chance):
    """These places, or some of them where there are many."""
    return places if len(places) <= MOST_PLACES else sorted(chance.sample(places, MOST_PLACES))


def programs_of(seed, wanted, most_ticks, kinds):
    """So many programs of a seed that end by themselves within so many ticks."""
    found = 0
    for case in budgets.cases_of(f"devices {seed}", kinds):
        if found == wanted:
            break
        command = model.read_words(case.words)
        if command is None or command.name != "run" or sorted(command.files) != sorted(case.files):
            continue
        try:
            program = Program(case, most_ticks)
        except (model.Refusal, model.Stuck):
            continue
        whole = program.whole
        if whole.status in (model.DONE, model.ERROR) and len(whole.output.encode()) + sum(len(text) for text in whole.stack or []) < ROOM // 8:
            found += 1
            yield program


def compared(part):
    """Compares so many programs of a seed, and tells how many calls that took, how they ended, and what differed."""
    program, seed, wanted, most_ticks, kinds = part
    tally, failed, batch = Counter(), [], []

    def compare():
        told, status = cases.told_by(program, [case for case, _ in batch])
        if status != 0 or len(told) < len(batch):
            failed.append((batch[:], f"{len(batch)} cases end with {status}, and {len(told)} are told"))
        else:
            for (case, wanted), lines in zip(batch, told):
                tally.update(line.split(",")[0].strip() for line in lines if line.startswith("  status"))
                if lines != wanted:
                    failed.append(([(case, wanted)], f"told {lines} and not {wanted}"))
        batch.clear()

    for number, made in enumerate(programs_of(seed, wanted, most_ticks, kinds)):
        cases.answer_of = made.answer_to
        batch += [(case, case.answered()) for case in made.cases(random.Random(f"{seed} {number}"))]
        if len(batch) >= BATCH:
            compare()
        if len(failed) > MOST_FAILURES:
            break
    if batch:
        compare()
    return tally, failed


def main():
    parser = argparse.ArgumentParser(description="Lets each device of a run fail in turn, beside the model of the language.")
    parser.add_argument("cases", nargs="?", default=CASES, metavar="CASES")
    parser.add_argument("--programs", type=int, default=2_000)
    parser.add_argument("--most-ticks", type=int, default=MOST_TICKS)
    parser.add_argument("--kinds", type=lambda names: names.split(","))
    parser.add_argument("--seed", type=int, default=1)
    parser.add_argument("--jobs", type=int, default=os.cpu_count())
    given = parser.parse_args()
    program = speed.built(given.cases)
    shares = [(given.programs + job) // given.jobs for job in range(given.jobs)]
    parts = [(program, f"{given.seed} {job}", share, given.most_ticks, given.kinds) for job, share in enumerate(shares)]
    with multiprocessing.Pool(given.jobs) as pool:
        ended = pool.map(compared, parts)
    tally = sum((counted for counted, _ in ended), Counter())
    print(f"{given.programs} programs, {sum(tally.values())} calls: " + ", ".join(f"{reason} {count}" for reason, count in tally.most_common()))
    kept, lines = None, []
    for batch, line in (one for _, found in ended for one in found):
        kept = kept or tempfile.mkdtemp(prefix="devices-kept-")
        path = os.path.join(kept, str(len(lines)))
        with open(path, "wb") as file:
            file.write(b"".join(case.lines() for case, _ in batch))
        lines.append(f"{path}: {line}")
    return speed.finish(lines)


if __name__ == "__main__":
    sys.exit(main())
