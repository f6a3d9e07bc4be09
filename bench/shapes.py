#!/usr/bin/env python3
"""Checks that no shape of source makes `factorc check` take more than near linear time, or much memory.

    python3 bench/shapes.py [--program PROGRAM] [--times] [--jobs J] [--list] [NAME ..]

PROGRAM is the built program, by default crates/factorc/out/factorc. A shape is a function from n to a source, with a name and a line of what it stresses;
add one to SHAPES. For each of these names, by default for all, the script runs `PROGRAM check` on the sources of n / 4, n and 4n, counts the instructions
of each by valgrind, and prints the ratio of what the last takes more than the middle one to what that takes more than the first: 4 where the shape is linear,
and 16 where it is quadratic. It ends with status 1 where a ratio is more than 4.6, where a run ends by a signal or with another status than the others,
where the bytes of the sources have such a ratio of more than 4.3, or where a file isn't of the grammar (status 3), so that nothing is checked.
Whether the source is accepted doesn't matter otherwise. The longest source may take 40 bytes of memory for each of its bytes, above 1 MiB and
what an empty one takes; that stands behind the ratio. Some shapes may take more, as KNOWN_RATIOS and KNOWN_BYTES say. With `--times` the script
takes the user time, for sources eight times as large; such times are worth something on an idle machine alone. `--list` lists the shapes.
"""

import argparse
import collections
import concurrent.futures
import os
import re
import sys
import tempfile

import processes
from allocations import Allocations

MOST_RATIO = 4.6
# The same of the bytes of the sources: they may grow by longer numbers.
MOST_GROWTH = 4.3
# The status of a file that isn't of the grammar.
NO_GRAMMAR = 3
# How many times as large the sources are whose user time is taken.
LARGER = 8
# The bytes of memory that a byte of source may take, above these.
MOST_BYTES_A_BYTE = 40
BASE = 1 << 20
# What takes more, and how much it may take: docs/SPEED.md has what each of these comes from.
KNOWN_RATIOS = {}
KNOWN_BYTES = {
    "classes": 71,
    "own-slots": 208,
    "heirs": 110,
    "makers": 229,
    "quotations-in-arrays": 53,
    "empty-arrays": 54,
    "empty-quotations": 47,
    "branches": 55,
    "branches-over-values": 43,
}
# So long a run may take, in seconds of processor time. A quadratic shape is ended by it.
MOST_SECONDS = 300

DEFAULT = os.path.join(os.path.dirname(os.path.abspath(__file__)), "..", "crates", "factorc", "out", "factorc")

Shape = collections.namedtuple("Shape", "name stresses n make")


def lines(count, form):
    """So many lines, each with its number in the place of {k}."""
    return "".join(form.replace("{k}", str(k)) + "\n" for k in range(count))


def word(name, items):
    """A word without inputs and outputs."""
    return f": {name} ( -- ) {items} ;\n"


def in_vocabularies(count):
    """The name `z`, defined in so many vocabularies."""
    return lines(count, "IN: v{k}\n: z ( -- ) ;")


def uses(count, name):
    """A name, named so often in words of a hundred items."""
    return "".join(word(f"u{k}", f"{name} " * 100) for k in range(max(1, count // 100)))


def many_used(count):
    """So many vocabularies, each of them used."""
    return lines(count, "IN: v{k}\nUSE: v{k}")


# Names and vocabularies.


def colons(n):
    return "QUALIFIED-WITH: kernel p\nQUALIFIED-WITH: math q\n" + ":" * (100 * n) + "\n"


def colons_of_all_lengths(n):
    longest = int((20 * n) ** 0.5)
    # A token of one or two colons begins a definition.
    prefixes = "".join("QUALIFIED-WITH: kernel " + ":" * k + "\n" for k in range(3, longest))
    return prefixes + word("w", (":" * longest + " ") * (20 * n // longest))


def companions(n):
    return "IN: a\nUSE: a" + ".private" * (20 * n) + "\n"


def companions_of_companions(n):
    return "".join("IN: a" + ".private" * k + "\n" for k in range(1, int((10 * n) ** 0.5))) + companions(n)


def unused_name(n):
    return in_vocabularies(n) + "IN: w\nUSE: v0\n" + uses(4 * n, "z")


def used_name(n):
    return in_vocabularies(n) + lines(n, "USE: v{k}") + "IN: w\n" + uses(4 * n, "z")


def used_and_defined(n):
    return lines(n, "IN: v{k}\nUSE: v{k}\n: z ( -- ) ;\nIN: w\n: y{k} ( -- ) z ;")


def used_of_others(n):
    others = lines(n, "IN: o{k}\n: z ( -- ) ;")
    return others + many_used(n) + "IN: v1\n: z ( -- ) ;\nIN: w\n" + uses(4 * n, "z")


def deferred_names(n):
    return lines(n, "IN: v{k}\nDEFER: z") + lines(n, "IN: v{k}\n: z ( -- ) ;")


def brought_names(n):
    return in_vocabularies(n) + lines(n, "FROM: v{k} => z ;") + "IN: w\n" + uses(4 * n, "z")


def one_prefix(n):
    return "QUALIFIED-WITH: kernel p\n" * n + uses(4 * n, "p:z")


def one_prefix_of_many(n):
    return lines(n, "IN: v{k}\nQUALIFIED-WITH: v{k} p") + uses(4 * n, "p:z")


def one_prefix_of_one(n):
    return in_vocabularies(n) + "QUALIFIED-WITH: v0 p\nIN: w\n" + uses(4 * n, "p:z")


def one_prefix_of_some(n):
    return in_vocabularies(n) + lines(n, "QUALIFIED-WITH: v{k} p") + "IN: w\n" + uses(4 * n, "p:z")


def prefixes(n):
    return lines(n, "QUALIFIED-WITH: kernel p{k}") + lines(n, ": w{k} ( x -- x x ) p{k}:dup ;")


def words(n):
    return lines(n, ": w{k} ( -- ) ;") + "".join(word(f"x{k}", f"w{k} w{n - 1 - k}") for k in range(n))


def one_word(n):
    return word("w", "") + uses(10 * n, "w")


def vocabularies(n):
    return lines(n, "IN: v{k}\nUSE: v{k}\n: w{k} ( -- ) ;") + "IN: w\n" + lines(n, ": x{k} ( -- ) w{k} ;")


def private_parts(n):
    return "IN: v\n" + lines(n, "<PRIVATE\n: p{k} ( -- ) ;\nPRIVATE>\n: w{k} ( -- ) p{k} ;")


def long_names(n):
    name = "x" * (100 * n)
    return word(name, "") + word("w", name)


def deferred_words(n):
    return lines(n, "DEFER: w{k}") + lines(n, ": w{k} ( -- ) ;")


def unknown_names(n):
    return lines(n, ": w{k} ( -- ) y{k} ;")


# Forms.


def classes(n):
    return "USE: accessors\n" + lines(n, "TUPLE: c{k} s{k} ;\n: w{k} ( x -- x ) s{k}>> ;")


def parents(n):
    return "TUPLE: c0 ;\n" + "".join(f"TUPLE: c{k + 1} < c{k} ;\n" for k in range(n))


def members(n):
    return lines(n, "SINGLETON: s{k}") + "UNION: all " + " ".join(f"s{k}" for k in range(n)) + " ;\n"


def slots(n):
    names = " ".join(f"s{k}" for k in range(60))
    return lines(n, f"TUPLE: c{{k}} {names} ;")


def own_slots(n):
    return "".join(f"TUPLE: c{k} " + " ".join(f"s{k:04}-{slot}" for slot in range(60)) + " ;\n" for k in range(n))


def heirs(n):
    names = " ".join(f"s{k}" for k in range(60))
    return f"TUPLE: p {names} ;\n" + lines(n, "TUPLE: c{k} < p ;")


def makers(n):
    names = " ".join(f"s{k}" for k in range(60))
    return f"TUPLE: c {names} ;\n" + lines(n, "C: <c{k}> c")


def unions_of_unions(n):
    return "SINGLETON: s\nUNION: u0 s ;\n" + "".join(f"UNION: u{k + 1} u{k} ;\n" for k in range(n))


def one_member(n):
    return "SINGLETON: s\nUNION: u " + "s " * (10 * n) + ";\n"


def next_methods(n):
    methods = "".join(f"M: c{k} g call-next-method ;\n" for k in range(1, n))
    return parents(n) + "USE: kernel\nGENERIC: g ( x -- )\nM: c0 g drop ;\n" + methods


def predicates(n):
    return lines(n, "SINGLETON: s{k}\n: w{k} ( x -- ? ) s{k}? ;")


def methods(n):
    return lines(n, "SINGLETON: s{k}") + "GENERIC: g ( x -- )\nUSE: kernel\n" + lines(n, "M: s{k} g drop ;")


def generics(n):
    return "USE: kernel\nTUPLE: c ;\n" + lines(n, "GENERIC: g{k} ( x -- )\nM: c g{k} drop ;")


def levels(n):
    return "USE: kernel\n" + lines(n, ": w{k} ( -- ) " + "[ " * 250 + "] " * 250 + "drop ;")


def locals_in_scope(n):
    names = " ".join(f"a{k}" for k in range(60))
    return lines(n, f":: w{{k}} ( {names} -- x ) a0 a59 drop ;").join(["USE: kernel\n", ""])


def row_variables(n):
    return "USE: kernel\n" + lines(n, ": w{k} ( ..a q: ( ..a -- ..b ) -- ..b ) call ; inline\n: x{k} ( -- x ) [ 1 ] w{k} ;")


def long_row_names(n):
    row = "..r" + "x" * (50 * n)
    return f"USE: kernel\n: w ( {row} q: ( {row} -- {row} ) -- {row} ) call ; inline\n" + word("u", "[ ] w " * n)


def long_own_rows(n):
    row = "..r" + "x" * (50 * n)
    return f"USE: kernel\n:: w ( {row} q: ( {row} -- {row} ) -- {row} ) " + "q call " * n + "; inline\n"


def many_inputs(n):
    names = " ".join(f"a{k}" for k in range(60))
    return "USE: kernel\n" + lines(n, f": w{{k}} ( {names} -- * ) throw ;")


def used_in_one_form(n):
    return "USING: " + "kernel math " * (10 * n) + ";\n"


def brought_in_one_form(n):
    names = " ".join(f"w{k}" for k in range(n))
    return "IN: a\n" + lines(n, ": w{k} ( -- ) ;") + f"IN: b\nFROM: a => {names} ;\n" + lines(n, ": x{k} ( -- ) w{k} ;")


def main_words(n):
    return word("w", "") + "MAIN: w\n" * (10 * n)


def recursive_words(n):
    return "USE: kernel\n" + lines(n, ": w{k} ( ? -- ) [ f w{k} ] [ ] if ; inline recursive")


def in_a_circle(n):
    return lines(n, "DEFER: w{k}") + "".join(f": w{k} ( -- ) w{(k + 1) % n} ;\n" for k in range(n))


def fries(n):
    return lines(n, ": w{k} ( x -- q ) '[ _ '[ _ ] ] ;")


def holes(n):
    return "USE: kernel\n" + lines(n, ": w{k} ( -- ) " + "1 " * 60 + "'[ " + "_ " * 60 + "] drop ;")


def bound_locals(n):
    return "USE: kernel\n" + lines(n, ":: w{k} ( a -- q ) [ [ [ [ a ] ] ] ] ;")


def wrapped_words(n):
    return "USE: kernel\n" + word("w", "\\ dup drop " * (10 * n))


def tested_calls(n):
    return "USE: kernel\n" + word("w", "[ ] call( -- ) " * (10 * n))


def words_in_arrays(n):
    return "USE: kernel\n{ " + "dup drop " * (5 * n) + "} drop\n"


def quotations_in_arrays(n):
    return "USE: kernel\n{ " + "[ 1 ] " * (10 * n) + "} drop\n"


def empty_arrays(n):
    return "USE: kernel\n{ " + "{ } " * (10 * n) + "} drop\n"


def empty_quotations(n):
    return "USE: kernel\n" + "[ ] drop " * (10 * n) + "\n"


def compositions(n):
    return "USE: kernel\n[ ] " + "[ ] compose " * (10 * n) + "drop\n"


def branches(n):
    return "USE: kernel\n" + "t [ 1 ] [ 2 ] if drop " * (5 * n) + "\n"


def branches_over_values(n):
    return "USE: kernel\n" + "1 " * n + "t [ ] [ ] if " * n + "\n"


def comments(n):
    return "! a comment \" of some length\n" * (10 * n)


def one_comment(n):
    return "! " + "x" * (300 * n) + "\n"


def strings(n):
    return "USE: kernel\n" + lines(n, ': w{k} ( -- ) "a string\\n of some length {k}" drop ;')


def one_string(n):
    return 'USE: kernel\n"' + "x" * (200 * n) + '" drop\n'


def elements(n):
    return "USE: kernel\n{ " + "1 " * (10 * n) + "} drop\n"


def items(n):
    return "USE: kernel\n" + "1 drop " * (10 * n) + "\n"


def constants(n):
    return lines(n, "CONSTANT: c{k} {k}\nSYMBOL: s{k}\n: w{k} ( -- x y ) c{k} s{k} ;")


def choices(n):
    cases = "{ [ dup ] [ drop ] } " * 40
    return "USING: kernel combinators ;\n" + lines(n, ": w{k} ( x -- ) { " + cases + "[ drop ] } cond ;")


SHAPES = [
    Shape("colons", "a token of colons, and two prefixes", 100, colons),
    Shape("colons-of-all-lengths", "prefixes of many lengths, which all begin a token", 1_000, colons_of_all_lengths),
    Shape("companions", "one vocabulary that is a companion many times", 100, companions),
    Shape("companions-of-companions", "the same, where many companions were named", 200, companions_of_companions),
    Shape("unused-name", "a name of many vocabularies, of which one is used", 300, unused_name),
    Shape("used-name", "a name of many vocabularies that are all used", 300, used_name),
    Shape("used-and-defined", "the same, named after each definition", 300, used_and_defined),
    Shape("used-of-others", "a name of many vocabularies, where many others are used", 300, used_of_others),
    Shape("deferred-names", "a name that many vocabularies defer", 300, deferred_names),
    Shape("brought-names", "a name that is brought of many vocabularies", 300, brought_names),
    Shape("one-prefix", "a prefix for one vocabulary, many times", 300, one_prefix),
    Shape("one-prefix-of-many", "a prefix for many vocabularies without the name", 300, one_prefix_of_many),
    Shape("one-prefix-of-one", "a prefix for one vocabulary, where many have the name", 300, one_prefix_of_one),
    Shape("one-prefix-of-some", "a prefix for many vocabularies with the name", 300, one_prefix_of_some),
    Shape("prefixes", "many prefixes", 300, prefixes),
    Shape("words", "many words", 500, words),
    Shape("one-word", "many uses of one word", 500, one_word),
    Shape("vocabularies", "many vocabularies with a word each, all used", 300, vocabularies),
    Shape("private-parts", "many private parts", 300, private_parts),
    Shape("long-names", "a name of many characters", 500, long_names),
    Shape("deferred-words", "many deferred words", 500, deferred_words),
    Shape("unknown-names", "many names that nothing has", 500, unknown_names),
    Shape("classes", "many tuple classes with accessors, up to the limit", 250, classes),
    Shape("parents", "a chain of parents, up to the limit of classes", 250, parents),
    Shape("members", "a union of many singletons, up to the limit of classes", 250, members),
    Shape("slots", "classes with many slots", 60, slots),
    Shape("own-slots", "classes with many slots of their own names", 60, own_slots),
    Shape("heirs", "classes that have many slots by their parent, up to the limit of classes", 250, heirs),
    Shape("makers", "many makers of a class with many slots", 250, makers),
    Shape("unions-of-unions", "a chain of unions, up to the limit of classes", 250, unions_of_unions),
    Shape("one-member", "a union that names one member many times", 500, one_member),
    Shape("next-methods", "methods that go on with the next, along a chain of parents", 125, next_methods),
    Shape("predicates", "many classes with predicates that are named, up to the limit", 250, predicates),
    Shape("methods", "a generic word with many methods, up to the limit of classes", 250, methods),
    Shape("generics", "a class with many methods", 300, generics),
    Shape("levels", "quotations as deep as they may be", 30, levels),
    Shape("locals", "words with as many locals as there may be", 30, locals_in_scope),
    Shape("row-variables", "effects with row variables", 150, row_variables),
    Shape("long-row-names", "a row variable of many characters, used many times", 200, long_row_names),
    Shape("long-own-rows", "a quotation input with a row variable of many characters, called many times", 200, long_own_rows),
    Shape("many-inputs", "words with many inputs", 60, many_inputs),
    Shape("used-in-one-form", "many vocabularies in one form", 300, used_in_one_form),
    Shape("brought-in-one-form", "many names that one form brings", 300, brought_in_one_form),
    Shape("main-words", "many main words", 300, main_words),
    Shape("recursive-words", "many recursive inline words", 300, recursive_words),
    Shape("in-a-circle", "many words that call one another in a circle", 500, in_a_circle),
    Shape("fries", "fries in fries", 300, fries),
    Shape("holes", "fries with as many holes as there may be", 60, holes),
    Shape("bound-locals", "quotations in quotations that keep a local", 300, bound_locals),
    Shape("wrapped-words", "many words behind a backslash", 300, wrapped_words),
    Shape("tested-calls", "many calls that are tested", 300, tested_calls),
    Shape("words-in-arrays", "an array of many words", 500, words_in_arrays),
    Shape("quotations-in-arrays", "an array of many quotations", 500, quotations_in_arrays),
    Shape("empty-arrays", "an array of many empty arrays", 500, empty_arrays),
    Shape("empty-quotations", "many empty quotations", 500, empty_quotations),
    Shape("compositions", "many known callables that are composed", 300, compositions),
    Shape("branches", "many branches", 300, branches),
    Shape("branches-over-values", "many branches on many values", 500, branches_over_values),
    Shape("comments", "many comments", 500, comments),
    Shape("one-comment", "a long comment", 500, one_comment),
    Shape("strings", "many strings", 500, strings),
    Shape("one-string", "a long string", 500, one_string),
    Shape("elements", "an array of many elements", 500, elements),
    Shape("items", "one run of many items", 500, items),
    Shape("constants", "many constants and symbols", 300, constants),
    Shape("choices", "words with a `cond` of many cases", 60, choices),
]


def instructions(program, path):
    """The status of a check, and its instructions. None where it takes too long."""
    command = ["valgrind", "--tool=callgrind", "--callgrind-out-file=/dev/null", program, "check", path]
    done = processes.run(command, MOST_SECONDS)
    counted = re.search(rb"Collected : (\d+)", done.note)
    return (done.status, int(counted.group(1))) if counted else None


def milliseconds(program, path):
    """The status of a check, and its user time. None where it takes too long."""
    done = processes.run([program, "check", path], MOST_SECONDS)
    return None if done.status is None else (done.status, done.seconds * 1000)


def measure(cost, program, folder, shape, n):
    """What the source of a shape costs."""
    path = os.path.join(folder, f"{shape.name}-{n}")
    with open(path, "w", encoding="utf-8") as file:
        file.write(shape.make(n))
    return cost(program, path)


def memory(allocations, program, folder, shape, n):
    """How many bytes of memory each byte of the source takes, above the base and what an empty one takes."""
    path = os.path.join(folder, f"{shape.name}-{n}")
    most, least = (allocations.run([program, "check", it]).most for it in (path, "/dev/null"))
    return max(0, most - least - BASE) / os.path.getsize(path)


def tell(shape, n, costs, each):
    """Prints the line of a shape, which takes so many bytes of memory a byte, and gives whether it is near linear and takes little."""
    if None in costs:
        print(f"{shape.name:<28}{n:>8}{'':>30}    ended, or over {MOST_SECONDS} s", flush=True)
        return False
    (status, least), (middle, few), (last, many) = costs
    ratio = (many - few) / max(few - least, 1)
    short, usual, long = (len(shape.make(size)) for size in (n // 4, n, 4 * n))
    growth = (long - usual) / (usual - short)
    most = KNOWN_RATIOS.get(shape.name, MOST_RATIO)
    is_near = ratio <= most and growth <= MOST_GROWTH and status == middle == last and status >= 0 and status != NO_GRAMMAR
    is_small = each <= KNOWN_BYTES.get(shape.name, MOST_BYTES_A_BYTE)
    note = ("" if is_near else f" * (the source {growth:.2f})") + ("" if is_small else " * memory")
    print(f"{shape.name:<28}{n:>8}{few:>15,.0f}{many:>15,.0f}{ratio:>8.2f}{each:>8.1f}  status {status}, {middle}, {last}{note}", flush=True)
    return is_near and is_small


def main():
    parser = argparse.ArgumentParser(description=__doc__, formatter_class=argparse.RawDescriptionHelpFormatter)
    parser.add_argument("--program", default=DEFAULT)
    parser.add_argument("--times", action="store_true")
    parser.add_argument("--list", action="store_true")
    parser.add_argument("--jobs", type=int, default=2)
    parser.add_argument("names", nargs="*")
    words_given = parser.parse_args()
    if words_given.list:
        print("\n".join(f"{shape.name:<28}{shape.stresses}" for shape in SHAPES))
        return 0
    chosen = [shape for shape in SHAPES if not words_given.names or shape.name in words_given.names]
    cost, larger, jobs = (milliseconds, LARGER, 1) if words_given.times else (instructions, 1, words_given.jobs)
    with tempfile.TemporaryDirectory() as folder, concurrent.futures.ThreadPoolExecutor(jobs) as pool:
        sizes = {shape.name: shape.n * larger for shape in chosen}
        started = [
            (shape, [pool.submit(measure, cost, words_given.program, folder, shape, n) for n in (size // 4, size, 4 * size)])
            for shape, size in ((shape, sizes[shape.name]) for shape in chosen)
        ]
        allocations = Allocations(folder, MOST_SECONDS)
        near = []
        for shape, costs in started:
            found = [each.result() for each in costs]
            each = memory(allocations, words_given.program, folder, shape, 4 * sizes[shape.name])
            near.append(tell(shape, sizes[shape.name], found, each))
    limits = f"{MOST_RATIO} times as much for four times the source, or more than {MOST_BYTES_A_BYTE} bytes a byte"
    print(f"{near.count(False)} of {len(near)} shapes take more than {limits}")
    return 0 if all(near) else 1


if __name__ == "__main__":
    sys.exit(main())
