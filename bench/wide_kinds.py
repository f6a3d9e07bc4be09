"""The kinds of cases of integers at the edges of 64 and 128 bits, which bench/compare.py makes at random: in every primitive that takes an integer, and
kept by arrays, tuples, callables and locals. With `bench/budgets.py --eager` those that are kept go through many collections."""

import model
from kinds import FILE, Case, happens

HEAD = "USING: accessors arrays combinators fry io kernel locals math math.parser prettyprint sequences ; TUPLE: box held ;"

# The powers at which integers change how they stand.
POWERS = [31, 32, 62, 63, 64, 65, 95, 96, 126, 127]

# What takes two integers, and what takes one, by their names; `shift` is asked for few bits too.
TWO = "+ - * /i mod bitand bitor bitxor shift = eq? < > <= >= max min".split()
ONE = ["bitnot", "number>string", "<iota>", "<iota> length", "neg", "abs", "sq", "1 + ", "1 -", "dup =", "dup eq?", "0 <", "not", "1array", "box boa", "throw"]

# What keeps a value and gives it back.
KEEPS = [
    "1array first",
    "box boa held>>",
    "[ ] curry call( -- x )",
    "[ ] curry [ 1 + ] compose call( -- x )",
    "'[ _ ] call( -- x )",
    "'[ _ 1 - ] call( -- x )",
    "number>string string>number",
    "dup 1array 2dup 0 swap set-nth nip first",
    "<iota> length",
    "[ 1 ] dip nip",
    "dup 2array second",
]

# What is made and dropped.
GARBAGE = ['"p" "q" append drop', "18446744073709551617 1 + drop", '"r" box boa drop', "1 [ + ] curry drop", "-9223372036854775809 1array drop"]


def edge(chance):
    """An integer at an edge, in range."""
    value = chance.choice([1, -1]) * 2 ** chance.choice(POWERS) + chance.randint(-2, 2)
    if happens(chance, 0.2):
        value = chance.randint(-3, 130)
    if happens(chance, 0.15):
        value = chance.randint(model.LEAST_INTEGER, model.GREATEST_INTEGER) >> chance.randint(0, 127)
    return max(model.LEAST_INTEGER, min(model.GREATEST_INTEGER, value))


def two_edges(chance):
    """An operation on two integers at edges, and what comes of it again."""
    first, second = edge(chance), edge(chance)
    if happens(chance, 0.1):
        second = first
    return [f"{first} {second} {chance.choice(TWO)} dup . {chance.choice(['', '. ', 'dup = .'])}"]


def one_edge(chance):
    """An operation on one integer at an edge."""
    return [f"{edge(chance)} {chance.choice(ONE)} ."]


def sequence_edge(chance):
    """What a primitive on sequences does with an integer at an edge."""
    value, other = edge(chance), edge(chance)
    return [
        chance.choice(
            [
                f"{value} {other} <iota> nth .",
                f"{value} {{ 1 2 }} nth .",
                f"{value} {other} {{ 1 2 }} dup [ set-nth ] dip .",
                f"{{ {value} {other} }} dup . {value} swap 2array .",
                f"{{ {value} {other} }} {{ {value} {other} }} = .",
                f"{{ {value} }} {{ {other} }} append reverse .",
                f"{value} {other} 2array >array dup first swap second = .",
                f"{value} f <array> .",
                f"{value} {other} \"abc\" subseq .",
                f"{value} <iota> {other} <iota> = . {value} <iota> .",
                f"{value} <iota> >array .",
                f"{value} <iota> {{ 1 }} append .",
            ]
        )
    ]


def edges(chance):
    """Aims at integers that stand in a value and those of which half stands in the store."""
    parts = chance.choice([two_edges, two_edges, two_edges, one_edge, sequence_edge])(chance)
    command = ["run", "--stack", FILE] if happens(chance, 0.3) else ["run", FILE]
    return Case(command, {FILE: f"{HEAD} {' '.join(parts)}".encode()})


def kept_edges(chance):
    """Aims at what is given back while a program runs: a wide integer that a local, an array, a tuple or a callable alone leads to stays what it is."""
    parts = [str(edge(chance)) for _ in range(2)]
    for _ in range(chance.randint(2, 6)):
        parts.append(chance.choice(GARBAGE) if happens(chance, 0.4) else chance.choice(KEEPS))
        if happens(chance, 0.2):
            parts.append("swap")
    return Case(["run", FILE], {FILE: f"{HEAD} :: w ( -- ) {edge(chance)} :> k {edge(chance)} :> l {' '.join(parts)} . . k . l . ; w".encode()})


NEEDED = ["::", "'[", "call(", "TUPLE:", "boa", "{", "sequence-words", "prelude", "built-in-classes", "--stack", "--steps"]

# Each kind, how many shares of the time it has, and what it needs.
WIDE_KINDS = [(edges, 3, NEEDED), (kept_edges, 3, NEEDED)]
