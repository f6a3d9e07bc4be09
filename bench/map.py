#!/usr/bin/env python3
"""Writes docs/MAP.md: each crate with the head of its `lib.rt`, its public names, and a line for each file of `src/` and `specs/`.

    python3 bench/map.py
    python3 bench/map.py --check

What is told of a file is the first sentence of its head comment. Definitions stand in the order of `specs/Lib.antt`, which is that of
reading, and files of `src/` by name. With `--check` nothing is written: the script ends with status 1 where docs/MAP.md isn't what it
would write.
"""
import pathlib
import re
import sys
import textwrap

TOP = pathlib.Path(__file__).resolve().parent.parent
CRATES = TOP / "crates"
MAP = TOP / "docs" / "MAP.md"
WIDTH = 160

ROOMS = [
    ("Base", "fac_base fac_par fac_lang fac_num fac_io fac_lines fac_spelling"),
    ("Reading", "fac_source fac_token fac_effect fac_parse fac_trees fac_prelude"),
    ("Names", "fac_vocab fac_items fac_endings fac_names fac_known fac_meanings"),
    ("Checking", "fac_abs fac_rows fac_graph fac_locals fac_classes fac_generic fac_check fac_longer fac_trace"),
    (
        "Image and machine",
        "fac_texts fac_code fac_bytes fac_machine fac_store fac_show fac_sequences fac_prim fac_vm fac_carry fac_emit fac_expand fac_standing",
    ),
    ("Tool", "fac_notes fac_session fac_judge fac_listener fac_listen fac_gen fac_command fac_explain fac_tool fac_program factorc fac_explainer factorc_explain"),
    (
        "Programs of tests and measurements",
        "fac_cases fac_explain_cases fac_image_cases fac_number_cases fac_spelling_cases fac_tests fac_count factorc_refused factorc_library",
    ),
]


def head(path):
    """The lines of a file's head comment, without their marks."""
    mark = "//!" if path.suffix == ".rt" else "--"
    lines = []
    for line in path.read_text(encoding="utf-8").splitlines():
        if not line.startswith(mark):
            break
        lines.append(line[len(mark) :].strip())
    return lines


def first_sentence(path):
    """The first sentence of a file's head comment. A sentence ends at a full stop before a capital letter, or with its paragraph."""
    paragraph = []
    for line in head(path):
        if not line:
            break
        paragraph.append(line)
    text = " ".join(paragraph)
    cut = re.search(r"\.(?= [A-Z`])", text)
    return (text[: cut.start()] if cut else text).rstrip(".")


def modules(path):
    """The modules that a list of definitions names, in its order."""
    if not path.is_file():
        return []
    return re.findall(r"^(?:pub )?mod ([A-Za-z_0-9]+)", path.read_text(encoding="utf-8"), re.M)


def public_names(crate):
    """What `lib.rt` gives to the crates above: the names of each `pub use`, and the public modules."""
    path = CRATES / crate / "src" / "lib.rt"
    if not path.is_file():
        return []
    text = path.read_text(encoding="utf-8")
    names = re.findall(r"^pub mod (\w+);", text, re.M)
    for used in re.findall(r"^pub use ([^;]+);", text, re.M):
        group = re.search(r"\{(.*)\}", used, re.S)
        listed = group.group(1).split(",") if group else [used.split("::")[-1]]
        names += [name.strip().split(" as ")[-1] for name in listed if name.strip()]
    names += re.findall(r"^pub fn (\w+)", text, re.M)
    return sorted(set(names), key=lambda name: (not name[0].isupper(), name.lower()))


def wrapped(text, first="", rest=""):
    return textwrap.fill(
        text, WIDTH, initial_indent=first, subsequent_indent=rest, break_long_words=False, break_on_hyphens=False
    )


def file_lines(folder, names):
    """A line for each of the files, in the order of the names."""
    lines = []
    for name in names:
        told = first_sentence(folder / name)
        stem = f"`{(folder / name).stem}`"
        lines.append(wrapped(f"{stem}: {told}" if told else stem, "- ", "  "))
    return lines


def spec_names(crate, lists, folder):
    """The files of a folder of definitions, in the order of its list, with those that no list names behind them."""
    place = CRATES / crate / "specs" / folder
    there = {path.name for path in place.glob("*.antt")} - {"Lib.antt", "inner.antt"}
    order = [f"{name}.antt" for name in modules(CRATES / crate / "specs" / lists)]
    listed = [name for name in order if name in there]
    return listed + sorted(there - set(listed))


def crate_lines(crate):
    root = CRATES / crate
    lib = root / "src" / "lib.rt"
    told = head(lib if lib.is_file() else root / "src" / "main.rt")
    lines = [f"### `{crate}`", ""]
    lines += [wrapped(" ".join(" ".join(told).split()))]
    names = public_names(crate)
    if names:
        lines += ["", wrapped("Public: " + ", ".join(f"`{name}`" for name in names) + ".")]
    parts = [
        ("specs", root / "specs", spec_names(crate, "Lib.antt", "")),
        ("specs/inner", root / "specs" / "inner", spec_names(crate, "inner.antt", "inner")),
        ("src", root / "src", sorted(path.name for path in (root / "src").glob("*.rt") if path.name != "lib.rt")),
    ]
    for title, folder, files in parts:
        if title == "src" and files == ["main.rt"]:
            continue
        if files:
            lines += ["", f"`{title}/`", "", *file_lines(folder, files)]
    return [*lines, ""]


def written():
    listed = [line.split(":")[0] for line in (TOP / "crates.txt").read_text(encoding="utf-8").splitlines() if line.strip()]
    placed = [crate for _, crates in ROOMS for crate in crates.split()]
    for crate in sorted(set(listed) ^ set(placed)):
        sys.exit(f"{crate}: stands in crates.txt or in ROOMS of this script, and not in the other")
    lines = [
        "# Map",
        "",
        wrapped(
            "Written by `python3 bench/map.py` from the heads of the files: change those, and not this page. It has each crate by its room, its "
            "public names, and its files: `specs/` are the definitions that contracts cite, in the order of reading, `specs/inner/` those that "
            "only contracts inside the crate cite, and `src/` the code. `docs/ARCHITECTURE.md` says how the rooms hang together."
        ),
        "",
    ]
    for room, crates in ROOMS:
        lines += [f"## {room}", ""]
        for crate in crates.split():
            lines += crate_lines(crate)
    return "\n".join(lines).rstrip() + "\n"


def main():
    text = written()
    if sys.argv[1:] == ["--check"]:
        if not MAP.is_file() or MAP.read_text(encoding="utf-8") != text:
            sys.exit("docs/MAP.md isn't what bench/map.py writes")
        print("docs/MAP.md is what bench/map.py writes")
    elif sys.argv[1:]:
        sys.exit(__doc__)
    else:
        MAP.write_text(text, encoding="utf-8")
        print(f"docs/MAP.md: {len(text.encode())} bytes")


main()
