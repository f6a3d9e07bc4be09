#!/usr/bin/env python3
"""Runs the programs of this folder, the tests of the library, the listings of the tutorial and the examples of notes, and tells whether each
writes what it should.

    python3 examples/check.py [PROGRAM]         on the built program, by default crates/factorc/out/factorc
    python3 examples/check.py --model           on the model of the language, bench/model.py

Each program is run behind the files of the library that its first lines name, and each test of the library behind the file that it tests and those that
this one needs, as `PROGRAM run lib/NAME.factor lib/NAME-tests.factor`. Its input is the file with its name and `.in`, or nothing where there is none. It has to
write what the file with its name and `.out` has, and to end with status 0 and without a note.

A listing of README.md and of docs/TUTORIAL.md is a block that begins with "```factor", perhaps with the names of files of the library that it needs behind
that, and with the word `image` before them where it is built as an image too, which is executed then, or `stack` where it is run with `--stack`. It is
run as `a.factor`, behind these.
A block behind it that begins with "```input" is its input. The next block, which begins with "```text", has what it writes, with its note at
the end, and behind that word `status=N` where it ends with another status than 0. A block that begins with "```listen", perhaps with such names too, has the
lines of a session, which `PROGRAM listen` takes behind those of these files.

An indented listing of docs/LANGUAGE.md is run as `a.factor`, behind all vocabularies where it uses none. Where the line behind it begins with "This prints",
it has to write what stands between backticks in this sentence; otherwise it has to be accepted.

The table of README.md that says what to write instead has sources between backticks: the first one of its left column has to be refused by the
grammar or as a name, and those of its right column that aren't one word have to be accepted. Both are run behind the whole library.

An example of docs/REFUSALS.md is an item of a list that begins with a note and, behind `of`, a source, both between backticks. The source is run as
`a.factor`, and has to write this note alone and to end with its status. Each text of the tables of notes has to stand in that document.

The commands in README.md, docs/TUTORIAL.md, examples/README.md and man/factorc.1 that name files are done in their order on the built program, in a folder
with a copy of lib/ and examples/, a program `a.factor`, and the listing of the tutorial that is an image too with its input, `votes.factor` and `votes.txt`.
Each has to end with status 0.

The script ends with status 1 where one ends otherwise or writes something else.
"""

import difflib
import os
import re
import shutil
import subprocess
import sys
import tempfile
from dataclasses import dataclass

TOP = os.path.realpath(os.path.join(os.path.dirname(os.path.abspath(__file__)), ".."))
sys.path.insert(0, os.path.join(TOP, "bench"))

# The modules of the folder bench.
import library as files  # noqa: E402
import model  # noqa: E402
import speed  # noqa: E402

MOST_SECONDS = 20.0

README = "README.md"
TUTORIAL = "docs/TUTORIAL.md"
LANGUAGE = "docs/LANGUAGE.md"
# The words behind `factor`, the text, the input, the words behind `text`, and what is written. None of the texts has a line that ends a block.
BLOCK = rb"((?:(?!```)[^\n]*\n)*)```\n"
LISTING = re.compile(
    rb"^```(factor|listen)([^\n]*)\n" + BLOCK + rb"\n+(?:```input\n" + BLOCK + rb"\n+)?```text([^\n]*)\n" + BLOCK, re.MULTILINE
)

INDENTED = re.compile(r"\n\n((?:    [^\n]*\n|\n(?=    ))+)\n([^\n]*(?:\n[^\n]+)*)")
ALL = "USING: kernel math math.parser sequences arrays io prettyprint combinators strings words accessors locals fry ;"

INSTEAD = "| In Factor | Write instead |\n|---|---|\n"
OF_LIBRARY = "combinators sequences sorting vectors assocs hashtables math text io".split()
BEFORE_INSTEAD = f"{ALL[:-2]} assocs hashtables math.functions vectors ; TUPLE: point x y ; "

MANUAL = "man/factorc.1"
# A command that names a file, on a line of its own or in backticks, and has no word in capital letters, which stands for others.
COMMAND = re.compile(r"^    ((?:factorc|printf|cat) .*\.\w.*)$|`((?:printf [^`]*)?factorc \w+ [^`]*\.\w[^`]*)`", re.MULTILINE)
CAPITALS = re.compile(r"\b[A-Z]+\b(?![\w.])")

REFUSALS = "docs/REFUSALS.md"
EXAMPLE = re.compile(rb"^- `([^`\n]+)` of\s+`([^`\n]+)`", re.MULTILINE)
STATUSES = {b"error": 1, b"syntax": 3, b"name": 4, b"check": 5}
NOTES = [f"crates/{name}.antt" for name in ("fac_notes/specs/NoteRows", "fac_notes/specs/Notes", "fac_tool/specs/ToldNotes", "fac_listen/specs/SessionNotes")]
NOTE = re.compile(rb'codes "([^"]*)"')


@dataclass
class Program:
    """A program: what it is called here, the names of its files and their texts, the status and the text that it ends with, its input, whether it
    is built as an image too, and the options of its run. A session has no names of files."""

    title: str
    names: list
    texts: dict
    status: int
    wanted: bytes
    given: bytes = b""
    image: bool = False
    options: tuple = ()


def read(name):
    """The bytes of the file with this name from the top of the repository."""
    with open(os.path.join(TOP, name), "rb") as file:
        return file.read()


def stored(names):
    """The program of these files of the repository, of which the last one is the program itself."""
    own = names[-1].removesuffix(".factor")
    given = read(own + ".in") if os.path.exists(os.path.join(TOP, own + ".in")) else b""
    return Program(names[-1], names, {name: read(name) for name in names}, 0, read(own + ".out"), given)


def programs():
    """The programs of this folder, the tests of the library, the listings of the tutorial and the examples of notes."""
    for folder in ("examples", "lib"):
        for name in sorted(os.listdir(os.path.join(TOP, folder))):
            tested = name.removesuffix("-tests.factor")
            if folder == "lib" and tested != name:
                yield stored([f"lib/{needed}.factor" for needed in files.with_needs(tested)] + [f"lib/{name}"])
            elif folder == "examples" and name.endswith(".factor"):
                path = f"examples/{name}"
                yield stored([*(f"lib/{needed}.factor" for needed in files.needs_of(path)), path])
    for page, number, found in ((page, *each) for page in (README, TUTORIAL) for each in enumerate(LISTING.finditer(read(page)), 1)):
        sort, library, text, given, status, wanted = found.groups()
        names = library.decode().split()
        image, stack = (names[:1] == [word] for word in ("image", "stack"))
        names = names[image or stack :]
        texts = {name: read(name) for name in names} | {"a.factor": text}
        status = int(status.partition(b"status=")[2] or 0)
        if sort == b"listen":
            yield Program(f"listing {number} of {page}", [], {}, status, wanted, b"".join(texts.values()))
        else:
            yield Program(f"listing {number} of {page}", [*names, "a.factor"], texts, status, wanted, given or b"", image, ("--stack",) if stack else ())
    for note, text in EXAMPLE.findall(read(REFUSALS)):
        yield Program(f"the example {text.decode()} of {REFUSALS}", ["a.factor"], {"a.factor": text}, STATUSES[note.partition(b":")[0]], note + b"\n")


def indented():
    """The indented listings of LANGUAGE, as programs."""
    for number, found in enumerate(INDENTED.finditer(read(LANGUAGE).decode()), 1):
        text = re.sub("^    ", "", found[1], flags=re.MULTILINE)
        told = re.match(r"This prints (.*?)[.:](?=\s|$)", found[2].replace("\n", " "))
        wanted = "".join(line + "\n" for line in re.findall("`([^`]*)`", told[1])) if told else ""
        whole = "" if "USING:" in text or "USE:" in text else ALL + "\n"
        yield Program(f"indented listing {number} of {LANGUAGE}", ["a.factor"], {"a.factor": (whole + text).encode()}, 0, wanted.encode())


def instead():
    """The sources of the table of README that says what to write instead: each with whether it is to be accepted."""
    for row in read(README).decode().partition(INSTEAD)[2].partition("\n\n")[0].split("\n"):
        left, right = [re.findall("`([^`]*)`", part.replace(r"\|", "|")) for part in re.split(r"(?<!\\)\|", row)[1:3]]
        yield from [(left[0], False)] + [(text, True) for text in right if " " in text]


def misguided(built):
    """What the table of README says wrongly."""
    faults = []
    names = [f"lib/{name}.factor" for name in OF_LIBRARY]
    texts = {name: read(name) for name in names}
    for text, accepted in instead():
        program = Program(text, [*names, "a.factor"], texts | {"a.factor": f"{BEFORE_INSTEAD}{text}\n".encode()}, 0, b"")
        status, told = run_model(program) if built is None else run_built(built, program)
        if status not in ((0,) if accepted else (3, 4)):
            faults.append(f"{README}: {text} ends with status {status}: {told.decode()}")
    return faults


def commands():
    """The commands of the documents, each with the page that has it."""
    for page in (README, TUTORIAL, "examples/README.md"):
        for found in COMMAND.finditer(read(page).decode()):
            if not CAPITALS.search(command := found[1] or found[2]):
                yield page, command
    block = re.search(r"^\.nf\n(.*?)^\.fi$", read(MANUAL).decode(), re.MULTILINE | re.DOTALL)[1]
    yield from ((MANUAL, line) for line in block.replace("\\-", "-").replace("\\\\", "\\").splitlines())


def unfollowed(built):
    """The commands of the documents that don't end well on the built program."""
    faults = []
    with tempfile.TemporaryDirectory() as folder:
        for name in ("lib", "examples"):
            shutil.copytree(os.path.join(TOP, name), os.path.join(folder, name))
        votes = next(program for program in programs() if program.image)
        texts = {"a.factor": b"USING: math prettyprint ; 1 2 + .\n", "votes.factor": votes.texts["a.factor"], "votes.txt": votes.given}
        for name, text in texts.items():
            with open(os.path.join(folder, name), "wb") as file:
                file.write(text)
        os.mkdir(os.path.join(folder, "bin"))
        os.symlink(os.path.abspath(built), os.path.join(folder, "bin", "factorc"))
        path = {**os.environ, "PATH": f"{folder}/bin:{os.environ['PATH']}"}
        for page, command in commands():
            ran = subprocess.run(command, shell=True, cwd=folder, env=path, stdin=subprocess.DEVNULL, capture_output=True, timeout=MOST_SECONDS, check=False)
            if ran.returncode:
                faults.append(f"{page}: {command} ends with status {ran.returncode}: {ran.stderr.decode()}")
    return faults


def unexplained():
    """The texts of notes that docs/REFUSALS.md doesn't have."""
    texts = [text.replace(b"\\n", b"").strip() for name in NOTES for text in NOTE.findall(read(name))]
    return [f"{REFUSALS} has nothing on the note {text.decode()}" for text in texts if text not in read(REFUSALS)]


def command_of(program):
    """The words of the command that runs a program."""
    return ["run", *program.options, *program.names] if program.names else ["listen"]


def run_built(built, program):
    """The status of the built program on these files, and what it writes, with its note at the end. Where an image is wanted too and the
    run ends as it should, these are of the image: of its build where that says anything, and else of its run."""
    with tempfile.TemporaryDirectory() as folder:
        for name, text in program.texts.items():
            path = os.path.join(folder, name)
            os.makedirs(os.path.dirname(path), exist_ok=True)
            with open(path, "wb") as file:
                file.write(text)

        def ended(*words):
            command = [os.path.abspath(built), *words]
            found = subprocess.run(command, cwd=folder, input=program.given, capture_output=True, timeout=MOST_SECONDS, check=False)
            return found.returncode, found.stdout + found.stderr

        ran = ended(*command_of(program))
        if not program.image or ran != (program.status, program.wanted):
            return ran
        saved = ended("build", *program.names, "-o", "a.image")
        return ended("exec", "a.image") if saved == (0, b"") else saved


def run_model(program):
    """The same of the model."""
    answer = model.answer(command_of(program), program.texts, given=program.given)
    return answer.status, answer.output.encode() + answer.note.encode()


def difference(got, program):
    """What is wrong with a status and what was written, in some lines; nothing where these are wanted."""
    status, text = got
    if text != program.wanted:
        texts = [each.decode(errors="replace").splitlines() for each in (program.wanted, text)]
        lines = difflib.unified_diff(*texts, "wanted", "written", lineterm="", n=1)
        return "writes something else:\n" + "\n".join(list(lines)[:20])
    return "" if status == program.status else f"ends with status {status} and not {program.status}"


def main():
    on_model = sys.argv[1:] == ["--model"]
    built = None if on_model else speed.program_or(speed.DEFAULT)
    failed = unexplained() + misguided(built) + ([] if on_model else unfollowed(built))
    count = 0
    for program in [*programs(), *indented()]:
        count += 1
        try:
            told = difference(run_model(program) if on_model else run_built(built, program), program)
        except subprocess.TimeoutExpired:
            told = f"takes more than {MOST_SECONDS:g} seconds"
        if told:
            failed.append(f"{program.title} {told}")
    print(f"{count} programs run, and {len(failed)} faults found")
    return speed.finish(failed)


if __name__ == "__main__":
    sys.exit(main())
