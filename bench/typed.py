#!/usr/bin/env python3
"""Compares sessions of the listener with runs of the same lines as one file, on programs made at random.

    python3 bench/typed.py [PROGRAM] [--programs N] [--seed S] [--model]

PROGRAM is the built program, by default crates/factorc/out/factorc; with --model it is the model of the language in bench/model.py. A program is put into
lines, each of which is whole by itself: a definition or another form, or some items. The lines are a file, which `run --stack` runs, and the lines of a
session. Where the run is done, the session has to write what the run writes, but for the stacks between, the last of which has to be that of the run; to take
as many ticks, which is asked of the model alone; and to tell no note.

Left out are programs whose run isn't done in the model, and those in which the model's session refuses a line, since that needs what comes later or what is
known of values of lines before, or in which one fails for want of a method that comes later. N programs have to be compared, 500 by default. The script ends
with status 1 where one differs.
"""

import argparse
import os
import random
import re
import subprocess
import sys
import tempfile

import model
import speed
from call_kinds import tested_callables
from class_kinds import classes
from kinds import guided, happens, one_row_word, running, sharing

TOKEN = re.compile(r'"(?:\\.|[^"\\])*"\S*|\S+')
TO_SEMICOLON = {":", "::", "M:", "USING:", "TUPLE:", "UNION:", "FROM:"}
WITH_NAMES = {"IN:": 1, "USE:": 1, "SYMBOL:": 1, "SINGLETON:": 1, "MAIN:": 1, "DEFER:": 1, "C:": 2, "QUALIFIED-WITH:": 2}
OPENS, CLOSES = {"[", "{", "'[", "[|", "(", "call(", "execute("}, {"]", "}", ")"}
MARKS = {"inline", "recursive"}
HEADER = "--- Data stack:\n"


def item_end(tokens, at):
    """Where the item at a place ends. A `cond` stands with the array before it, and a name with the `\\` before it."""
    depth = 0
    while at < len(tokens):
        token = tokens[at]
        depth += (token in OPENS) - (token in CLOSES)
        at += 2 if token == "\\" else 1
        if depth <= 0 and not (token == "}" and tokens[at : at + 1] == ["cond"]):
            break
    return at


def form_end(tokens, at):
    """Where the form at a place ends, or the item."""
    token = tokens[at]
    if token in TO_SEMICOLON:
        at = tokens.index(";", at) + 1
        while tokens[at : at + 1] and tokens[at] in MARKS:
            at += 1
        return at
    if token in WITH_NAMES:
        return at + 1 + WITH_NAMES[token]
    if token in ("CONSTANT:", "GENERIC:"):
        return item_end(tokens, at + 2)
    return item_end(tokens, at)


def lines_of(source, chance):
    """The forms and items of a source in lines: each form in its own, and items some to a line."""
    tokens, at, lines, is_open = TOKEN.findall(source), 0, [], False
    share = chance.choice([0.1, 0.5, 1])
    while at < len(tokens):
        end = form_end(tokens, at)
        text = " ".join(tokens[at:end])
        is_item = tokens[at] not in TO_SEMICOLON and not re.fullmatch("[A-Z<-]+:|<PRIVATE|PRIVATE>", tokens[at])
        if is_item and is_open:
            lines[-1] += " " + text
        else:
            lines.append(text)
        is_open = is_item and not happens(chance, share)
        at = end
    return lines


def without_stacks(output, stacks):
    """The output of a session without its stacks, which are written behind lines and told as a list."""
    for stack in stacks:
        output = output.replace(stack, "", 1)
    return output


class OnModel:
    """The answers of the model."""

    def run(self, text):
        answer = model.answer(["run", "--stack", "a"], {"a": text}, 200_000)
        return answer.status, answer.output, answer.note, answer.ticks

    def listen(self, text):
        answer = model.answer(["listen"], {}, 200_000, text)
        return answer.status, answer.output, answer.note, answer.ticks


class OnProgram:
    """Those of a built program."""

    def __init__(self, program, folder):
        self.program = program
        self.folder = folder

    def ended(self, words, given):
        ended = subprocess.run([self.program, *words], cwd=self.folder, input=given, capture_output=True, timeout=60, check=False)
        return ended.returncode, ended.stdout.decode(), ended.stderr.decode(), None

    def run(self, text):
        with open(os.path.join(self.folder, "a"), "wb") as file:
            file.write(text)
        return self.ended(["run", "--stack", "a"], b"")

    def listen(self, text):
        return self.ended(["listen"], text)


def heard_in_model(text):
    """The stacks that a session of these lines writes in the model, and the texts of its last one; None where a line isn't whole by itself, so that it is
    refused, or fails for want of what comes later."""
    session, stacks = model.Session(), []
    for line in text.decode().splitlines():
        session.run = None
        told = session.line(line.encode(), None, model.BUDGET)
        if told.note or session.end_wanted is not None:
            return None
        if session.run is not None and session.run.written and session.run.written[-1].startswith(HEADER):
            stacks.append(session.run.written[-1])
    return stacks, "".join(model.shown(value) + "\n" for value in session.stack)


def difference(text, on):
    """What is wrong with a session of these lines; None where nothing is, and `left out` where it can't be told."""
    if "DEFER:" in text.decode() or model.answer(["run", "a"], {"a": text}, 50_000).status != model.DONE:
        return "left out"
    heard = heard_in_model(text)
    if heard is None:
        return "left out"
    status, output, note, ticks = on.run(text)
    if status != model.DONE:
        return f"the run ends with status {status}: {note}"
    status, session, note, spent = on.listen(text)
    if status != model.DONE or note:
        return f"the session ends with status {status}, and tells {note!r}"
    if without_stacks(session, heard[0]) + heard[1] != output:
        return f"the session writes {session[-200:]!r}, and the run {output[-200:]!r}"
    return None if spent == ticks else f"the session takes {spent} ticks, and the run {ticks}"


def main():
    parser = argparse.ArgumentParser(description="Compares sessions of the listener with runs of the same lines as one file.")
    parser.add_argument("program", nargs="?", default=speed.DEFAULT, metavar="PROGRAM")
    parser.add_argument("--programs", type=int, default=500)
    parser.add_argument("--seed", type=int, default=1)
    parser.add_argument("--model", action="store_true")
    words = parser.parse_args()
    model.build(list(model.PIECES))
    chance = random.Random(words.seed)
    compared, left_out, failed = 0, 0, []
    with tempfile.TemporaryDirectory() as folder:
        on = OnModel() if words.model else OnProgram(speed.built(words.program), folder)
        while compared < words.programs and len(failed) < 10:
            source = chance.choice([running, guided, one_row_word, classes, tested_callables, sharing])(chance)
            source = source if isinstance(source, bytes) else next(iter(source.files.values()))
            text = ("\n".join(lines_of(source.decode("latin-1"), chance)) + "\n").encode()
            told = difference(text, on)
            if told == "left out":
                left_out += 1
                continue
            compared += 1
            failed += [] if told is None else [f"{told} of {text.decode()!r}"]
    print(f"{compared} programs compared, {left_out} left out")
    return speed.finish(failed)


if __name__ == "__main__":
    sys.exit(main())
