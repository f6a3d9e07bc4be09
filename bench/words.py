#!/usr/bin/env python3
"""Writes docs/WORDS.md: every word that there is, with its effect, what it does, its errors, and an index.

    python3 bench/words.py              writes it
    python3 bench/words.py --check      ends with status 1 where it isn't what would be written

Effects and vocabularies are read from the code: the tables of primitive words, core words and classes in crates/fac_lang/src, the prelude in
crates/fac_prelude/src/lib.rt, and lib/*.factor, where the comment before a word says what it does. What a word of the tool does, and errors,
are the lines of docs/words.txt. A word without a line there, and a line without a word, end the script with status 1.
"""

import os
import re
import sys
import textwrap
from dataclasses import dataclass

TOP = os.path.realpath(os.path.join(os.path.dirname(os.path.abspath(__file__)), ".."))
TABLES = "crates/fac_lang/src/"
PRELUDE = "crates/fac_prelude/src/lib.rt"
LINES = "docs/words.txt"
WRITTEN = "docs/WORDS.md"
WIDTH = 160

# The files of the library whose words are told, each behind those that it needs. `unicode` has none for a program.
LIBRARY = """combinators sequences sorting vectors assocs hashtables sets heaps dlists math bignums random text io testing""".split()

HEAD = """\
# Words

This page is written by `bench/words.py` from the tables of the code, the prelude, `lib/` and `docs/words.txt`; it isn't changed by hand. `docs/LANGUAGE.md`
has the rules, and the words that a program gets by its own `TUPLE:` and other forms.

Each word stands under its vocabulary, with its stack effect, what it does, and the errors that it may end with. Of several errors the one that stands
first counts, and of several values that are of the wrong kind the deepest. `length` as an error says that the result would have more than 1,000,000
elements, where nothing else is said.

Behind an effect may stand:

- *prelude*: the word is defined in the language itself, in the text that stands in front of every program. It takes the ticks of that text, and an error
  is told of the word in it that failed: `{ } first` ends with `bounds in sequences:nth`.
- *expanded*: an `inline` word whose phrase is checked where it is named. What its callables leave comes to its effect.
- *row word*: an `inline` word with row variables or marked `recursive`. Its callables may take and change what lies below.
- *generic*: a generic word, for which a program may define methods.
- *singleton*: a class of one value, which is the word itself. It has a predicate, its name with `?` behind it.
"""

TOOL = """\
## Words of the tool

A program may define a word of such a name in a vocabulary of its own. In a vocabulary that has the word, or in its companion, that is refused as `twice`.
"""

LIBRARY_HEAD = """\
## Words of `lib/`

These aren't part of the tool: a program names their files before its own, as `factorc run lib/sorting.factor a.factor`. Below each file stands which
others it needs, in an order that serves: so is the order in which they stand here. Their tests, `lib/NAME-tests.factor`, are run by the gate and by
`examples/check.py`. Where Factor has a word of the name, it takes and leaves as many values there, unless something else is said. `lib/unicode.factor` has
characters for `lib/text.factor`, and no word for a program.
"""


@dataclass
class Word:
    """A word: its vocabulary, its name, its effect as it is written, what stands behind that, what it does, and its errors."""

    vocab: str
    name: str
    effect: str
    marks: list
    what: str = ""
    errors: str = ""
    predicate: bool = False


def fail(told):
    sys.exit(f"words.py: {told}")


def read(name):
    with open(os.path.join(TOP, name), encoding="utf-8") as file:
        return file.read()


# The tables of the code

ROW = re.compile(r'WordRow \{ vocab: "([^"]*)", name: "([^"]*)", ins: &\[([^\]]*)\], outs: (None|Some\(&\[([^\]]*)\]\)) \}')
CLASS = re.compile(r'ClassRow \{ vocab: "([^"]*)", name: "([^"]*)", has_predicate: (true|false) \}')


def effect_of(ins, outs):
    """An effect as it is written; the lists are those of the code, and no outputs are a word that never returns."""
    left = ["*"] if outs is None else re.findall(r'"([^"]*)"', outs)
    return " ".join(["(", *re.findall(r'"([^"]*)"', ins), "--", *left, ")"])


def rows(name, count):
    """The words of a table, of which each row has a line."""
    text = read(TABLES + name)
    length = len(re.findall(r"^    \w+Row \{", text, re.MULTILINE))
    found = list((CLASS if count == "classes" else ROW).finditer(text))
    if len(found) != length:
        fail(f"{name}: {len(found)} rows are read, and the table has {length}")
    return [row.groups() for row in found]


def table_words():
    """The primitive words by their numbers, and then the core words and the classes."""
    primitives = [Word(vocab, name, effect_of(ins, None if out == "None" else outs), []) for vocab, name, ins, out, outs in rows("primitive_table.rt", "words")]
    core = [Word(vocab, name, effect_of(ins, None if out == "None" else outs), []) for vocab, name, ins, out, outs in rows("core_table.rt", "words")]
    classes = [Word(vocab, name, "( -- value )", [], predicate=has == "true") for vocab, name, has in rows("class_table.rt", "classes")]
    return primitives, core + classes


# Words of a source

DEFINING = (":", "::", "GENERIC:", "SINGLETON:", "CONSTANT:", "SYMBOL:", "TUPLE:", "UNION:", "C:")


def sort_of(form, effect, text):
    """What stands behind the effect: how the word is checked."""
    marks = text.rpartition(" ;")[2].split()
    if form in ("GENERIC:", "SINGLETON:"):
        return [form[:-1].lower()]
    if "inline" not in marks:
        return []
    return ["row word"] if ".." in effect or "recursive" in marks else ["expanded"]


def effect_at(name, text):
    """The effect behind the name of a word."""
    found = []
    depth = 0
    for token in text.split()[2:]:
        found.append(token)
        depth += {"(": 1, ")": -1}.get(token, 0)
        if depth == 0:
            return " ".join(found)
    fail(f"{name} has no effect")


def source_words(text, marks):
    """The words that a source defines for others, each with the comment before it, and the comment at its head."""
    words = []
    vocab = "scratchpad"
    private = False
    head = comment = ""
    for number, block in enumerate(re.split(r"\n\n+", text.strip())):
        lines = block.splitlines()
        told = " ".join(line[1:].strip() for line in lines if line == "!" or line.startswith("! "))
        rest = [line for line in lines if line != "!" and not line.startswith("! ")]
        if number == 0 and not rest:
            head = told
            continue
        # Each form begins at the front of a line.
        forms = re.split(r"\n(?=\S)", "\n".join(rest)) if rest else []
        for form in forms:
            tokens = form.split()
            if tokens[0] == "IN:":
                vocab, private = tokens[1], False
            elif tokens[0] in ("<PRIVATE", "PRIVATE>"):
                private = tokens[0] == "<PRIVATE"
            elif tokens[0] in DEFINING and (not private or not head):
                plain = tokens[0] in (":", "::", "GENERIC:")
                effect = effect_at(tokens[1], form) if plain else "( -- value )"
                place = vocab + ".private" if private else vocab
                words.append(Word(place, tokens[1], effect, marks + sort_of(tokens[0], effect, form), told))
    return head, words


def prelude_text():
    """The text of the prelude, which has no strings and no comments, so that its tokens stand between white space."""
    text = re.search(r'&str = "\\\n(.*?)^";$', read(PRELUDE), re.MULTILINE | re.DOTALL).group(1)
    if re.search(r'["\\]|(^|\s)!\s', text):
        fail(f"{PRELUDE} has a string or a comment")
    return text


def numbered_prelude():
    """The lines of the prelude, each behind the number of its first token."""
    lines = []
    token = 1
    for line in prelude_text().splitlines():
        lines.append(f"    {token:4} {line}" if line else "")
        token += len(line.split())
    return "\n".join(lines)


# The lines


def lines_of(text):
    """The lines for words by their vocabularies and names, and the notes on groups."""
    words = {}
    notes = {}
    for line in re.sub(r"\n    ", " ", text).splitlines():
        if not line or line.startswith("!"):
            continue
        if line.startswith("== "):
            group, _, told = line[3:].partition(" | ")
            notes[group] = told
            continue
        parts = [part.strip() for part in re.split(r" \|(?= |$)", line)]
        if len(parts) not in (3, 4) or (parts[0], parts[1]) in words:
            fail(f"{LINES}: {line}")
        words[parts[0], parts[1]] = (parts[2], parts[3] if len(parts) == 4 else "")
    return words, notes


def join(tool, library, told):
    """Gives each word what its line says."""
    left = dict(told)
    for word in tool:
        if (word.vocab, word.name) not in left:
            fail(f"{LINES} has no line for {word.name} in {word.vocab}")
        word.what, word.errors = left.pop((word.vocab, word.name))
        if not word.what:
            fail(f"{LINES} doesn't say what {word.name} in {word.vocab} does")
    for word in library:
        if not word.what:
            fail(f"{word.name} in {word.vocab} has no comment before it")
        what, word.errors = left.pop((word.vocab, word.name), ("", ""))
        if what:
            fail(f"{LINES} says what {word.name} in {word.vocab} does, as its file does")
    for vocab, name in left:
        fail(f"{LINES} has a line for {name} in {vocab}, which isn't there")


# The page


def wrapped(text, behind=""):
    """A paragraph in lines, of which none ends in what stands between backticks."""
    held = re.sub(r"`[^`]*`", lambda span: span.group().replace(" ", "\0"), " ".join(text.split()))
    lines = textwrap.wrap(held, WIDTH - 4, subsequent_indent=behind, break_long_words=False, break_on_hyphens=False)
    return "\n".join(lines).replace("\0", " ")


def entry(word):
    """A word as an item of a list."""
    named = f"`{word.name} {word.effect}`" if not word.predicate else f"`{word.name} {word.effect}`, `{word.name}? ( object -- ? )`"
    marks = f" *{', '.join(word.marks)}*" if word.marks else ""
    what = word.what.rstrip(".")
    if re.match(r"[A-Z][a-z ]", what):
        what = what[0].lower() + what[1:]
    if word.predicate:
        what += "; whether a value is in it"
    errors = f" Errors: {word.errors}." if word.errors else ""
    return wrapped(f"- {named}{marks}: {what}.{errors}", "  ")


def index(words):
    """The names by their first letters, each with the section in which it stands."""
    groups = {}
    for name, place in sorted(words, key=lambda each: (each[0].lower(), each)):
        first = name[0].lower() if name[0].isalpha() else "1" if name[0].isdigit() else "!"
        groups.setdefault(first, []).append(f"`{name}`\0{place}")
    titles = {"!": "Signs", "1": "Digits"}
    return "\n".join(wrapped(f"- **{titles.get(first, first)}** " + ", ".join(groups[first]), "  ") for first in sorted(groups))


def page():
    primitives, others = table_words()
    prelude = source_words(prelude_text(), ["prelude"])[1]
    library = {name: source_words(read(f"lib/{name}.factor"), []) for name in LIBRARY}
    told, notes = lines_of(read(LINES))
    tool = primitives + others + prelude
    join(tool, [word for _, words in library.values() for word in words], told)

    vocabs = list(dict.fromkeys(vocab for vocab, _ in told))
    vocabs = [vocab for vocab in vocabs if any(word.vocab == vocab for word in tool)]
    known = [(word.name + end, word.vocab) for word in tool for end in ([""] + ["?"] * word.predicate)]
    known += [(word.name, f"lib/{name}") for name, (_, words) in library.items() for word in words]
    unused = set(notes) - set(vocabs) - {f"lib/{name}.factor" for name in LIBRARY}
    if unused:
        fail(f"{LINES} has a note on {', '.join(sorted(unused))}, which isn't there")

    parts = [HEAD, "## Index\n", "Behind a name stands the section that has it: a vocabulary of the tool, or a file of `lib/`.\n", index(known) + "\n", TOOL]
    for vocab in vocabs:
        parts.append(f"### {vocab}\n")
        if vocab in notes:
            parts.append(wrapped(notes[vocab]) + "\n")
        parts.append("\n".join(entry(word) for word in tool if word.vocab == vocab) + "\n")
    parts.append(LIBRARY_HEAD)
    for name, (head, words) in library.items():
        file = f"lib/{name}.factor"
        parts.append(f"### {file}\n")
        parts.append(wrapped(f"{head} {notes.get(file, '')}") + "\n")
        for vocab in dict.fromkeys(word.vocab for word in words):
            parts.append(f"In `{vocab}`:\n")
            parts.append("\n".join(entry(word) for word in words if word.vocab == vocab) + "\n")
    parts.append("## The prelude\n")
    parts.append("A note may name a token of this text. Before each line stands the number of its first token.\n")
    parts.append(numbered_prelude() + "\n")
    parts.append("## Primitives by number\n")
    parts.append("An image names a primitive by the number of its row in the table.\n")
    parts.append(wrapped(", ".join(f"{number} `{word.name}`" for number, word in enumerate(primitives))) + "\n")
    return "\n".join(parts)


def main():
    text = page()
    if sys.argv[1:] == ["--check"]:
        if not os.path.exists(os.path.join(TOP, WRITTEN)) or read(WRITTEN) != text:
            fail(f"{WRITTEN} isn't what `python3 bench/words.py` writes")
    elif sys.argv[1:]:
        fail("the words are --check or none")
    else:
        with open(os.path.join(TOP, WRITTEN), "w", encoding="utf-8") as file:
            file.write(text)


if __name__ == "__main__":
    main()
