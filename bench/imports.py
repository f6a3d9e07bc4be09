#!/usr/bin/env python3
"""Lists the imports of definitions and lemmas that name nothing: a module that isn't there, or a name that its module doesn't have.

    python3 bench/imports.py

It goes over the lines `use Rattle..` and `ghost use Rattle..` that name modules of the repository, in a second or two, where a prover comes to
the first of them after minutes. So it is run behind each merge and each move of files. What the toolchain itself makes (the goals of proofs, the
contracts of derived functions) isn't looked at. It knows names by their look, so a name that it takes to be there may still not be public.
"""
import pathlib
import re
import sys

TOP = pathlib.Path(__file__).resolve().parent.parent
CRATES = TOP / "crates"
IMPORT = re.compile(r"\s*(?:pub |ghost )?use Rattle\.(fac_\w+|factorc)\.([\w.+«»\-]+?)(?:\.\{([^}]*)\}| as \w+)?;?$")
MADE = ("contracts", "Goals", "Given")


def names_in_definitions(text):
    """The names that a file of definitions or lemmas has: what it defines, with constructors and members, and what it hands on."""
    names = set()
    for line in text.split("\n"):
        defined = re.match(r"\s*(?:abbrev |unfoldable )*pub (?:abbrev |unfoldable |data |record |mutual )*([^\s:({]+)", line)
        if defined and defined.group(1) not in ("use", "mod"):
            names.add(defined.group(1))
        handed = re.match(r"\s*pub use [^{]*\{([^}]*)\}", line)
        if handed:
            names.update(part.split(" as ")[-1].strip() for part in handed.group(1).split(", "))
        member = re.match(r"\s+(?:pub )?([^\s:({=]+) :", line)
        if member:
            names.add(member.group(1))
    return names


def names_in_code(text, path):
    """The names that a module of code has below a path: its constants, its types, or the variants of a type."""
    if path[:1] == ["TheConstants"]:
        return set(re.findall(r"\b(?:const|static) (\w+):", text))
    if path[1:2] == ["TheVariants"]:
        return set(re.findall(r"\w+", text))
    return set(re.findall(r"\b(?:struct|enum|trait) (\w+)", text))


def read(path, texts):
    """The text of a file, or None."""
    if path not in texts:
        texts[path] = path.read_text(encoding="utf-8") if path.is_file() else None
    return texts[path]


def missing(crate, path, names, texts):
    """What an import names that isn't there."""
    base = CRATES / crate
    if any(part in MADE for part in path):
        return []
    if path[:2] == ["specs", "declared"]:
        module, rest = (path[2], path[3:]) if path[2] != "TheConstants" else ("lib", path[2:])
        text = read(base / "src" / f"{module}.rt", texts)
        if text is None:
            return [f"module {crate}::{module}"]
        there = names_in_code(text, rest)
        wanted = rest[:1] if rest and rest[0] != "TheConstants" and rest[1:2] != ["TheVariants"] else names
        return [f"{name} in {crate}::{module}" for name in wanted if name not in there]
    parts = path[:3] if path[:2] == ["specs", "inner"] and len(path) > 2 else path[:2]
    text = read(base.joinpath(*parts[:-1], f"{parts[-1]}.antt"), texts)
    if text is None:
        return [] if path[0] == "proofs" and (base / "src" / f"{path[1]}.rt").is_file() else [f"module {crate}.{'.'.join(parts)}"]
    there = names_in_definitions(text)
    return [f"{name} in {crate}.{'.'.join(parts)}" for name in names if name not in there]


def main():
    texts = {}
    found = 0
    files = [file for folder in ("src", "specs", "proofs") for file in sorted(CRATES.glob(f"*/{folder}/**/*")) if file.suffix in (".rt", ".antt")]
    for file in files:
        for number, line in enumerate(read(file, texts).split("\n"), 1):
            import_ = IMPORT.match(line)
            if not import_:
                continue
            names = [part.split(" as ")[0].strip() for part in (import_.group(3) or "").split(", ") if part]
            for what in missing(import_.group(1), import_.group(2).split("."), names, texts):
                print(f"{file.relative_to(TOP)}:{number}: no {what}")
                found += 1
    print(f"{found} found")
    sys.exit(1 if found else 0)


if __name__ == "__main__":
    main()
