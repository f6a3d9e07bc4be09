#!/usr/bin/env python3
"""Writes what editors know of the language, and tests that, the manual page and the completions of shells.

    python3 bench/editors.py            writes editors/vim/syntax/factorc.vim and editors/vscode/syntaxes/factorc.tmLanguage.json
    python3 bench/editors.py --check    ends with status 1 where something is wrong

The reserved tokens are those of docs/LANGUAGE.md, and the words those of the tables of the code and of the prelude, as bench/words.py reads them.
The check says where a written file isn't what would be written. It reads each program of examples/ and each file of lib/ by the patterns of the
grammar for VS Code, and each token has to get the scope that the rules of tokens give it; where `vim` is installed, it asks that for the groups of one
program too. The commands and options of man/factorc.1, of the completions and of the sections of README.md and docs/LANGUAGE.md have to be those that
crates/fac_command reads, and bash has to complete words to them. The problem matcher for VS Code and the compiler file for Vim have to find the place in what
`factorc_explain` writes.
"""

import json
import pathlib
import re
import shutil
import subprocess
import sys
import tempfile

import words

ROOT = pathlib.Path(__file__).resolve().parent.parent
VIM = "editors/vim/syntax/factorc.vim"
PACKAGE = "editors/vscode/package.json"
EXPLAINED = "a.factor:2:7: check: top-level, a.factor token 7: underflow, needs 2, has 1\n    1 2 + +\n          ^\n+ needs 2 values, and finds 1 value.\n"
VSCODE = "editors/vscode/syntaxes/factorc.tmLanguage.json"
PAGES = ["man/factorc.1", "editors/shell/factorc.bash", "editors/shell/_factorc", "README.md", "docs/LANGUAGE.md"]
COMMANDS = "crates/fac_command/src/command.rt"

BEFORE, BEHIND = r"(?<!\S)", r"(?!\S)"
INTEGER = r"-?(?:[0-9]+(?:,[0-9]+)*|0x[0-9a-fA-F]+|0o[0-7]+|0b[01]+)"
TEXT = r'"(?:[^"\\]|\\.)*"'


def reserved():
    """The reserved tokens by their groups: signs, forms, marks, and those that are left out."""
    text = (ROOT / "docs/LANGUAGE.md").read_text(encoding="utf-8")
    groups = re.findall(r"^- (Signs|Forms|Marks and items|Left out): ((?:`[^`]*`\s+)+)", text, re.MULTILINE)
    found = {name: re.findall("`([^`]*)`", told) for name, told in groups}
    # The signs that begin a definition are forms here.
    found["Signs"] = [name for name in found["Signs"] if name not in (":", "::")]
    found["Forms"] += [":", "::"]
    return found


def tool_words():
    """The names of the words of the tool, with predicates, without those that are private."""
    primitives, others = words.table_words()
    prelude = words.source_words(words.prelude_text(), [])[1]
    names = {each.name for each in [*primitives, *others, *prelude] if not each.name.startswith("(")}
    names |= {each.name + "?" for each in others if each.predicate}
    return sorted(names - {"t", "f"}, key=lambda name: (-len(name), name))


def one_of(names):
    return BEFORE + "(?:" + "|".join(re.escape(name) for name in sorted(names, key=lambda name: (-len(name), name))) + ")" + BEHIND


# VS Code


def grammar():
    """The grammar: its patterns match whole tokens, and the first one that matches at a place counts."""
    groups = reserved()
    truth = {"t", "f"}
    naming = "CONSTANT: SYMBOL: GENERIC: TUPLE: UNION: SINGLETON: DEFER: C: MAIN: :: :".split()
    comment = {"name": "comment.line.factorc", "match": BEFORE + r"!(?=\s|$).*$"}
    patterns = [
        comment,
        {
            "name": "string.quoted.double.factorc",
            "match": BEFORE + TEXT + BEHIND,
            "captures": {"0": {"patterns": [{"name": "constant.character.escape.factorc", "match": r'\\[ntr\\"]'}]}},
        },
        {"name": "constant.numeric.factorc", "match": BEFORE + INTEGER + BEHIND},
        {
            "match": BEFORE + "(" + "|".join(map(re.escape, naming)) + r")(\s+)(?![\"!]\s|\")(\S+)" + BEHIND,
            "captures": {"1": {"name": "keyword.other.factorc"}, "3": {"name": "entity.name.function.factorc"}},
        },
        {
            "match": BEFORE + r"(IN:|USE:)(\s+)(?!!\s|\")(\S+)" + BEHIND,
            "captures": {"1": {"name": "keyword.other.factorc"}, "3": {"name": "entity.name.namespace.factorc"}},
        },
        {"name": "constant.language.factorc", "match": one_of(truth)},
        {"name": "invalid.illegal.factorc", "match": one_of(groups["Left out"] + ["foldable", "flushable"])},
        {"name": "keyword.control.factorc", "match": one_of([name for name in groups["Marks and items"] if not name.endswith("able")])},
        {"name": "keyword.other.factorc", "match": one_of(groups["Forms"])},
        {"name": "keyword.operator.factorc", "match": one_of(set(groups["Signs"]) - truth)},
        {"name": "support.function.factorc", "match": one_of(tool_words())},
        {"name": "variable.other.member.factorc", "match": BEFORE + r"(?:>>\S+|\S+(?:>>|<<))" + BEHIND},
    ]
    return {
        "$schema": "https://raw.githubusercontent.com/martinring/tmlanguage/master/tmlanguage.json",
        "name": "factorc",
        "scopeName": "source.factorc",
        "fileTypes": ["factor"],
        "patterns": patterns,
    }


def vscode():
    return json.dumps(grammar(), indent=2, ensure_ascii=False) + "\n"


# Vim


def vim():
    groups = reserved()
    truth = {"t", "f"}

    def matches(group, names):
        """Lines that match each of these tokens as a whole."""
        escaped = [re.sub(r"([\\/.*$^~\[\]])", r"\\\1", name) for name in names]
        return "".join(f"syntax match {group} /\\S\\@<!{name}\\S\\@!/\n" for name in escaped)

    lines = [
        '" Vim syntax file for factorc. `bench/editors.py` writes it.\n\n',
        'if exists("b:current_syntax")\n    finish\nendif\n\n',
        "syntax case match\nsyntax sync minlines=1\n\n",
        "syntax match factorcMember /\\S\\@<!\\(>>\\S\\+\\|\\S\\+>>\\|\\S\\+<<\\)\\S\\@!/\n",
        matches("factorcWord", tool_words()),
        "\n",
        matches("factorcSign", [name for name in groups["Signs"] if name not in truth]),
        matches("factorcForm", groups["Forms"]),
        matches("factorcMark", [name for name in groups["Marks and items"] if not name.endswith("able")]),
        matches("factorcLeftOut", groups["Left out"] + ["foldable", "flushable"]),
        matches("factorcTruth", sorted(truth)),
        "\n",
        "syntax match factorcName /\\(\\S\\@<!\\(CONSTANT:\\|SYMBOL:\\|GENERIC:\\|TUPLE:\\|UNION:\\|SINGLETON:\\|DEFER:\\|C:\\|MAIN:\\|::\\|:\\)\\s\\+\\)\\@<=\\S\\+/\n",
        "syntax match factorcInteger /\\S\\@<!-\\?\\(\\d\\+\\(,\\d\\+\\)*\\|0x\\x\\+\\|0o\\o\\+\\|0b[01]\\+\\)\\S\\@!/\n",
        'syntax match factorcEscape /\\\\[ntr\\\\"]/ contained\n',
        'syntax match factorcText /\\S\\@<!"\\([^"\\\\]\\|\\\\.\\)*"\\S\\@!/ contains=factorcEscape\n',
        "syntax match factorcComment /\\S\\@<!!\\S\\@!.*$/\n\n",
    ]
    links = {
        "Comment": "Comment", "Text": "String", "Escape": "SpecialChar", "Integer": "Number", "Truth": "Boolean", "Sign": "Delimiter", "Form": "Keyword",
        "Mark": "Statement", "LeftOut": "Error", "Name": "Function", "Word": "Identifier", "Member": "Type",
    }
    lines += [f"highlight default link factorc{name} {link}\n" for name, link in links.items()]
    lines.append('\nlet b:current_syntax = "factorc"\n')
    return "".join(lines)


# Tests


def tokens(text):
    """The tokens of a source by the rules of LANGUAGE: where each begins, and its text. A comment is one."""
    found = []
    at = 0
    for line in text.split("\n"):
        place = 0
        while found_one := re.compile(r"[^\t\v\f\r ]+").search(line, place):
            begin, end = found_one.span()
            if found_one[0] == "!":
                end = len(line)
            elif found_one[0].startswith('"'):
                end = re.compile(TEXT).match(line, begin).end()
            found.append((at + begin, line[begin:end]))
            place = end
        at += len(line) + 1
    return found


def scopes(text):
    """The scope that the grammar gives to each place where one begins."""
    found = {}
    patterns = [(each, re.compile(each["match"])) for each in grammar()["patterns"]]
    at = 0
    for line in text.split("\n"):
        place = 0
        while place < len(line):
            firsts = [(match.start(), number, match) for number, (_, pattern) in enumerate(patterns) if (match := pattern.search(line, place))]
            if not firsts:
                break
            _, number, match = min(firsts)
            each = patterns[number][0]
            if "name" in each:
                found[at + match.start()] = each["name"]
            else:
                found.update({at + match.start(int(group)): told["name"] for group, told in each["captures"].items()})
            place = max(match.end(), place + 1)
        at += len(line) + 1
    return found


def wanted(token, before, groups, known):
    """The scope that a token has to have, behind the one before it."""
    if token == "!" or token.startswith("! "):
        return "comment.line"
    if token.startswith('"'):
        return "string.quoted.double"
    if re.fullmatch(INTEGER, token):
        return "constant.numeric"
    if before in ("IN:", "USE:"):
        return "entity.name.namespace"
    if before in "CONSTANT: SYMBOL: GENERIC: TUPLE: UNION: SINGLETON: DEFER: C: MAIN: :: :".split():
        return "entity.name.function"
    if token in ("t", "f"):
        return "constant.language"
    for group, scope in (("Left out", "invalid.illegal"), ("Marks and items", "keyword.control"), ("Forms", "keyword.other"), ("Signs", "keyword.operator")):
        if token in groups[group]:
            return scope
    if token in known:
        return "support.function"
    if re.fullmatch(r">>.+|.+(>>|<<)", token):
        return "variable.other.member"
    return None


def misread(name, groups, known):
    """What the grammar reads wrongly in a source."""
    text = (ROOT / name).read_text(encoding="utf-8")
    got = scopes(text)
    faults = []
    before = ""
    for at, token in tokens(text):
        want = wanted(token, before, groups, known)
        told = got.pop(at, None)
        if told != (want and want + ".factorc"):
            faults.append(f"{name}: {token!r} is {told}, and not {want}")
        before = token
    return faults + [f"{name}: {text[at:].split()[0]!r} is {told}, and no token begins there" for at, told in got.items()]


VIM_PROBE = "USING: math ; : sq2 ( x -- y ) dup * t -0x1f \"a\\n\" x>> H{ drop2 inline ! word"
VIM_GROUPS = ["Form", "", "Sign", "Form", "Name", "Sign", "", "Sign", "", "Sign", "Word", "Word", "Truth", "Integer", "Text", "Member", "LeftOut", "", "Mark", "Comment"]


def misread_by_vim():
    """What Vim reads wrongly in a line; nothing where it isn't installed."""
    if not shutil.which("vim"):
        return []
    places = [at + 1 for at, _ in tokens(VIM_PROBE)]
    with tempfile.TemporaryDirectory() as folder:
        source, told = pathlib.Path(folder, "a.factor"), pathlib.Path(folder, "told")
        source.write_text(VIM_PROBE + "\n", encoding="utf-8")
        asked = ", ".join(f"synIDattr(synID(1, {place}, 1), 'name')" for place in places)
        script = pathlib.Path(folder, "ask.vim")
        script.write_text(f"syntax on\nsource {ROOT / VIM}\ncall writefile([{asked}], '{told}')\nqa!\n", encoding="utf-8")
        subprocess.run(["vim", "-u", "NONE", "-N", "-es", "-S", str(script), str(source)], stdin=subprocess.DEVNULL, capture_output=True, timeout=60, check=False)
        got = told.read_text(encoding="utf-8").split("\n")[: len(places)] if told.exists() else []
    want = ["factorc" + group if group else "" for group in VIM_GROUPS]
    return [] if got == want else [f"{VIM}: vim tells {got}, and not {want}"]


def commands():
    """The commands and the options that the program reads, without --help, which is none."""
    text = (ROOT / COMMANDS).read_text(encoding="utf-8")
    return sorted(set(re.findall(r'\b(?:word|option)\.as_str\(\) == "([^"]*)"', text)))


def untold():
    """What the manual page and the completions have wrongly."""
    known = set(commands())
    faults = []
    for name in PAGES:
        text = (ROOT / name).read_text(encoding="utf-8").replace("\\-", "-")
        if name.endswith(".1"):
            told = set(re.findall(r"^\.B factorc (\w+)", text, re.MULTILINE)) | set(re.findall(r"(?<![\w-])(--\w+|-o)\b", text))
        elif name.endswith(".md"):
            section = text.partition("\n## Commands\n")[2].partition("\n## ")[0]
            told = set(re.findall(r"^\| `(?:factorc )?(\w+)", section, re.MULTILINE)) | set(re.findall(r"(?<![\w-])(--\w+|-o)\b", section))
        else:
            told = set(re.search(r"^# The commands and options: (.*)\.$", text, re.MULTILINE)[1].split())
            faults += [f"{name}: {each} stands only in its first lines" for each in told if text.count(each) < 2]
        faults += [f"{name}: {each} isn't told" for each in sorted(known - told)] + [f"{name}: there is no {each}" for each in sorted(told - known)]
    return faults


def unmatched():
    """What editors find wrongly in what `factorc_explain` writes."""
    pattern = json.loads((ROOT / PACKAGE).read_text(encoding="utf-8"))["contributes"]["problemMatchers"][0]["pattern"]
    found = [match for line in EXPLAINED.split("\n") if (match := re.match(pattern["regexp"], line))]
    told = [tuple(match[pattern[part]] for part in ("file", "line", "column")) for match in found]
    faults = [] if told == [("a.factor", "2", "7")] else [f"{PACKAGE}: the pattern finds {told}"]
    if not shutil.which("vim"):
        return faults
    with tempfile.TemporaryDirectory() as folder:
        pathlib.Path(folder, "errors").write_text(EXPLAINED, encoding="utf-8")
        asked = "map(getqflist(), 'bufname(v:val.bufnr) .. \":\" .. v:val.lnum .. \":\" .. v:val.col')"
        script = f"compiler! factorc\ncgetfile errors\ncall writefile({asked}, 'told')\nqa!\n"
        pathlib.Path(folder, "ask.vim").write_text(f"set runtimepath^={ROOT}/editors/vim\n{script}", encoding="utf-8")
        asking = ["vim", "-u", "NONE", "-N", "-es", "-S", "ask.vim"]
        subprocess.run(asking, cwd=folder, stdin=subprocess.DEVNULL, capture_output=True, timeout=60, check=False)
        told = pathlib.Path(folder, "told")
        got = told.read_text(encoding="utf-8").split() if told.exists() else []
    return faults + ([] if got == ["a.factor:2:7"] else [f"editors/vim/compiler/factorc.vim: vim finds {got}"])


BASH = 'source "$0"; COMP_WORDS=(factorc "$@"); COMP_CWORD=$#; _factorc; echo "${COMPREPLY[@]}"'


def completed(*typed):
    """What bash offers in place of the last of these words behind the program's name."""
    ran = subprocess.run(["bash", "-c", BASH, str(ROOT / "editors/shell/factorc.bash"), *typed], capture_output=True, text=True, timeout=60, check=False)
    return ran.stdout.split()


def uncompleted():
    """What bash completes wrongly; nothing where it isn't installed."""
    if not shutil.which("bash"):
        return []
    known = set(commands())
    offered = [*completed(""), *(option for words in (("run", "-"), ("exec", "-"), ("build", "a", "-")) for option in completed(*words))]
    faults = [f"bash doesn't offer {each}" for each in sorted(known - set(offered))] + [f"bash offers {each}" for each in sorted(set(offered) - known)]
    return faults + ([] if completed("ch") == ["check"] else [f"bash offers {completed('ch')} for ch"])


def main():
    made = {VIM: vim(), VSCODE: vscode()}
    if sys.argv[1:] != ["--check"]:
        for name, text in made.items():
            (ROOT / name).write_text(text, encoding="utf-8")
        return 0
    faults = [f"{name} isn't what `python3 bench/editors.py` writes" for name, text in made.items() if (ROOT / name).read_text(encoding="utf-8") != text]
    groups, known = reserved(), set(tool_words())
    sources = [*sorted((ROOT / "examples").glob("*.factor")), *sorted((ROOT / "lib").glob("*.factor"))]
    for path in sources:
        if path.name != "unicode.factor":
            faults += misread(str(path.relative_to(ROOT)), groups, known)
    faults += misread_by_vim() + untold() + uncompleted() + unmatched()
    print(*faults[:40], f"{len(sources)} sources read, and {len(faults)} faults found", sep="\n")
    return 1 if faults else 0


if __name__ == "__main__":
    sys.exit(main())
