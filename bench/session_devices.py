#!/usr/bin/env python3
"""Lets the devices of sessions of the listener fail, on sessions made at random, beside the model of the language in bench/model.py.

    python3 bench/session_devices.py [CASES] [--sessions N] [--seed S]

CASES is the built program of crates/fac_cases, by default crates/fac_cases/out/fac_cases. N sessions, 500 by default, are those of bench/session_kinds.py in
which no line takes more than 2,000 ticks. In each, in turn, some writes of the output fail, with no byte taken, with one and with all, some writes of the
notes, and the reads of the input; and the sinks are too small for all of it. Status, ticks, what was taken of output and notes, and what is left of the input
have to be what bench/cases.py says. The same seed S, 1 by default, gives the same sessions. It ends with status 1 where an answer differs.
"""
import argparse
import os
import random
import sys
from collections import Counter

import cases
import model
import speed
from session_kinds import changed_arrays, methods_later, sessions, typed

CASES = os.path.join(os.path.dirname(os.path.abspath(__file__)), "..", "crates", "fac_cases", "out", "fac_cases")
MOST_TICKS = 2_000
MOST_PLACES = 4
ROOM = 20_000
BATCH = 100


class Counted(cases.Sink):
    """A sink that fails at no write, with the sizes of all."""

    def __init__(self):
        super().__init__(1 << 30, {})
        self.sizes = []

    def write(self, piece):
        super().write(piece)
        self.sizes += [len(piece)] if piece else []


def case_of(given, **fails):
    """The case of a session on this input, with devices that fail."""
    case = cases.Case()
    case.words, case.given, case.sources, case.room = ["listen"], given, {"a": b""}, ROOM
    for name, value in fails.items():
        setattr(case, name, value)
    return case


def cases_of(given, chance):
    """The cases of a session on this input."""
    output, note = Counted(), Counted()
    stream = cases.Input(given, [])
    cases.answer_of_session(stream, output, note)
    if len(output.taken) > ROOM or len(note.taken) > ROOM:
        return
    yield case_of(given)
    for name, sizes in (("output", output.sizes), ("note", note.sizes)):
        places = range(1, len(sizes) + 2)
        for number in places if len(places) <= MOST_PLACES else sorted(chance.sample(places, MOST_PLACES)):
            size = sizes[number - 1] if number <= len(sizes) else 1
            for taken in sorted({0, 1, size}):
                yield case_of(given, **{name: {number: taken}})
    for number in range(1, stream.reads + 2):
        yield case_of(given, reads=[number])
        yield case_of(given, reads=[number], note={1: 0}, output={2: 0})
    yield case_of(given, room=chance.randrange(1 + max(len(output.taken), len(note.taken))))


def main():
    parser = argparse.ArgumentParser(description="Lets the devices of sessions of the listener fail.")
    parser.add_argument("cases", nargs="?", default=CASES, metavar="CASES")
    parser.add_argument("--sessions", type=int, default=500)
    parser.add_argument("--seed", type=int, default=1)
    words = parser.parse_args()
    program = speed.built(words.cases)
    model.build(list(model.PIECES))
    chance = random.Random(words.seed)
    tally, failed, found = Counter(), [], 0
    while found < words.sessions and len(failed) < 10:
        batch = []
        while found < words.sessions and len(batch) < BATCH:
            given = chance.choice([sessions, typed, methods_later, changed_arrays])(chance).given
            if model.answer(["listen"], {}, MOST_TICKS, given).status != model.SPENT:
                found += 1
                batch += [(case, case.answered()) for case in cases_of(given, chance)]
        told, status = cases.told_by(program, [case for case, _ in batch])
        if status != 0 or len(told) < len(batch):
            failed.append(f"{len(batch)} cases end with {status}, and {len(told)} are told")
            continue
        for (case, wanted), lines in zip(batch, told):
            tally.update(line.split(",")[0].strip() for line in lines if line.startswith("  status"))
            if lines != wanted:
                failed.append(f"told {lines} and not {wanted} of {case.lines().decode()!r}")
    print(f"{found} sessions, {sum(tally.values())} calls: " + ", ".join(f"{reason} {count}" for reason, count in tally.most_common()))
    return speed.finish(failed)


if __name__ == "__main__":
    sys.exit(main())
