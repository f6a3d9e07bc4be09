#!/usr/bin/env python3
"""Measures factorc on large sources and long runs, and checks that its time stays near linear.

    python3 bench/speed.py [PROGRAM [LONGER]]

PROGRAM is the built program, by default crates/factorc/out/factorc. The script makes its sources, runs `PROGRAM run FILE` or
`PROGRAM check FILE` on each several times, and prints the shortest time, the longest time and the greatest peak of memory. It ends
with status 1 where a run answers wrongly or a limit is passed: where a sort of source stands in two sizes, the larger is four times
the smaller and may take at most five times as long; and each sort has a most of seconds for its larger size. The first example of
README is run with little memory too. Images of many instructions are executed, and one is built from a large source. Last, a thousand
files, and twenty of a vocabulary each, are checked beside one file with the same text, and may take a tenth longer; bench/workers.py tells how much
less twenty files take with several workers. What needs forms or commands that aren't built, as model.BUILT tells, is left out.

Sessions of the listener stand in two sizes too. A line makes all anew that stands before it, so they are short, and the larger one, of four times as many
lines, may take up to 25 times as long; beside that of definitions stands a check of its lines as one file, with no bound. A number behind PROGRAM is by how
much sessions are made longer, for a program whose lines cost less.

The peak is what the system counts for the process. It is never less than this script's own size, some twenty megabytes.
"""

import os
import sys
import tempfile
import time

import model

RUNS = 5
SMALL = 1 << 20
LARGE = 1 << 22
MOST_RATIO = 5.0
# The most memory that the first example may take, in KiB.
MOST_OF_FIRST_EXAMPLE = 20 << 10
WITH_LITTLE_MEMORY = ["/bin/sh", "-c", f'ulimit -v {MOST_OF_FIRST_EXAMPLE}; exec "$@"', "sh"]

FILES = 1_000
BYTES_OF_A_FILE = 4_096
MOST_RATIO_OF_FILES = 1.1

# The aim is 4, and 3 times as long as a check, for 2,500 and 10,000 lines.
MOST_RATIO_OF_SESSIONS = 25.0

DEFAULT = os.path.join(os.path.dirname(os.path.abspath(__file__)), "..", "crates", "factorc", "out", "factorc")


# How many items a word may have; a word of the sources that follow has fewer.
UNITS_IN_A_WORD = 1_000


def write_words(path, head, effect, unit, begin, end, size):
    """Writes a file of at most this size: the head, words of so many units each, and the phrase that runs them all between its begin
    and its end. Gives the number of units."""
    word = b": w%d ( " + effect + b" )" + unit * UNITS_IN_A_WORD + b" ;\n"
    count = (size - len(head) - len(begin) - len(end)) // (len(word) + 14)
    with open(path, "wb") as file:
        file.write(head)
        for number in range(count):
            file.write(word % number)
        file.write(begin)
        for number in range(count):
            file.write(b" w%d" % number)
        file.write(end)
    return count * UNITS_IN_A_WORD


def numbers_and_drops(path, size):
    """Numbers of several widths, each dropped. Nothing is printed."""
    unit = b" 7 drop -12345 drop 3 40 drop drop 170141183460469231731687303715884105727 drop\n"
    write_words(path, b"USING: kernel ;\n", b"--", unit, b"", b"\n", size)
    return 0, b"", b""


def chains_of_sums(path, size):
    """Long sums of ones, one after the other, which are printed as one."""
    count = write_words(path, b"USING: math prettyprint ;\n", b"x -- y", b" 1 +", b"0", b" .\n", size)
    return 0, b"%d\n" % count, b""


def small_words(path, count):
    """So many words of some hundred bytes each, each of which names the one before; the last is run."""
    body = b"dup dup * over + swap drop 3 * 7 + dup over - drop 2 - dup drop 1 + drop"
    with open(path, "wb") as file:
        file.write(b"USING: kernel math prettyprint ;\n: word-0 ( x -- y ) 1 + ;\n")
        for number in range(1, count):
            file.write(b": word-%d ( x -- y ) word-%d %s 5 ;\n" % (number, number - 1, body))
        file.write(b"4 word-%d .\n" % (count - 1))
    return 0, b"5\n", b""


def chain_of_calls(path, count):
    """So many words, each of which calls the one before it, so that the calls are as deep."""
    with open(path, "wb") as file:
        file.write(b"USING: math prettyprint ;\n: w0 ( x -- y ) 1 + ;\n")
        for number in range(1, count):
            file.write(b": w%d ( x -- y ) w%d ;\n" % (number, number - 1))
        file.write(b"41 w%d .\n" % (count - 1))
    return 0, b"42\n", b""


def spending(text):
    """What makes a source of this text, which runs until the budget is spent."""

    def make(path, _):
        with open(path, "wb") as file:
            file.write(text)
        return 6, b"", b"spent: 100000000 ticks\n"

    return make


def nested_quotations(path, count):
    """So many words, each with quotations in quotations that run; the last is run."""
    with open(path, "wb") as file:
        file.write(b"USING: kernel math prettyprint ;\n")
        for number in range(count):
            file.write(b": word-%d ( x -- y ) [ 2 * ] call t [ 1 - ] [ [ 3 ] call * ] if t [ [ 1 + ] call ] [ [ [ 2 * ] call ] call ] if ;\n" % number)
        file.write(b"4 word-%d .\n" % (count - 1))
    return 0, b"8\n", b""


def branches_over_a_tall_stack(path, count):
    """So many values, and over them a fifth as many branches; each word of the file may have 200,000 items."""
    with open(path, "wb") as file:
        file.write(b"USING: kernel ;\n" + b"1 " * count + b"t [ ] [ ] if " * (count // 5) + b"\n")
    return 0, b"", b""


def inline_words(path, count):
    """So many inline words, each of which names the one before it and none twice, and one that uses the last ones."""
    with open(path, "wb") as file:
        file.write(b"USING: kernel math prettyprint ;\n: w0 ( x -- y ) 1 + ; inline\n")
        for number in range(1, count):
            file.write(b": w%d ( x -- y ) %s 1 + ; inline\n" % (number, b"w%d" % (number - 1) if number % 50 else b""))
        file.write(b"0 w%d .\n" % (count - 1))
    return 0, b"%d\n" % ((count - 1) % 50 + 1), b""


def led_to_a_recursive_word(path, count):
    """So many inline words, each of which names the one before it, and the first of them itself, so that the file is refused."""
    with open(path, "wb") as file:
        file.write(b": w0 ( -- ) w0 ; inline\n")
        for number in range(1, count):
            file.write(b": w%d ( -- ) w%d ; inline\n" % (number, number - 1))
    return 5, b"", b"check: scratchpad:w0, %s token 2: undeclared-recursion\n" % os.fsencode(path)


def composed_twice(path, count):
    """So many times `dup compose` in a row, which as a tree has 2 to that power parts."""
    with open(path, "wb") as file:
        file.write(b"USING: kernel ; [ ]" + b" dup compose" * count + b" drop\n")
    return 0, b"", b""


def in_a_cycle(path, count):
    """So many inline words in one cycle, which is closed by a deferred word, so that the file is refused."""
    with open(path, "wb") as file:
        file.write(b"DEFER: w0\n")
        for number in range(1, count):
            file.write(b": w%d ( -- ) w%d ; inline\n" % (number, number - 1))
        file.write(b": w0 ( -- ) w%d ; inline\n" % (count - 1))
    token = 2 + 8 * (count - 1) + 2
    return 5, b"", b"check: scratchpad:w0, %s token %d: undeclared-recursion\n" % (os.fsencode(path), token)


def led_to_a_cycle(path, count):
    """So many inline words, each of which names the one before it, and the first of them two words in a cycle."""
    with open(path, "wb") as file:
        file.write(b"DEFER: b : a ( -- ) b ; inline : b ( -- ) a ; inline : w0 ( -- ) a b ; inline\n")
        for number in range(1, count):
            file.write(b": w%d ( -- ) w%d ; inline\n" % (number, number - 1))
    return 5, b"", b"check: scratchpad:b, %s token 12: undeclared-recursion\n" % os.fsencode(path)


VOCABULARIES = 20
# How many words stand together in a vocabulary.
WORDS_IN_A_ROW = 50


def many_vocabularies(path, size):
    """Words in twenty vocabularies, all of which are used, each word of which names words of others. Checks the file."""
    names = b" ".join(b"vocabulary-%d" % number for number in range(VOCABULARIES))
    head = b"".join(b"IN: %s\n" % name for name in names.split(b" ")) + b"USING: kernel math " + names + b" ;\n"
    count = 0
    with open(path, "wb") as file:
        file.write(head)
        while file.tell() < size - 80:
            if count % WORDS_IN_A_ROW == 0:
                file.write(b"IN: vocabulary-%d\n" % (count // WORDS_IN_A_ROW % VOCABULARIES))
            if count > 200:
                named = (count, count - 1, count - 1 - count % 97, count // 2)
                file.write(b": word-%d ( x -- x ) dup word-%d 1 + word-%d swap word-%d drop ;\n" % named)
            else:
                file.write(b": word-%d ( x -- x ) 1 + ;\n" % count)
            count += 1
    return 0, b"checked %d definitions\n" % count, b""


def vocabularies_in_files(folder, size):
    """Writes a file for each of twenty vocabularies, with at most this size together. Each uses all vocabularies before its own, and its words name words
    of them. Gives the names of the files and the number of words."""
    names, count = [], 0
    for number in range(VOCABULARIES):
        used = b"".join(b" vocabulary-%d" % before for before in range(number))
        text = bytearray(b"USING: kernel math%s ; IN: vocabulary-%d\n" % (used, number))
        while len(text) < size // VOCABULARIES - 90:
            if count > 200:
                named = (count, count - 1, count - 1 - count % 97, count // 2)
                text += b": word-%d ( x -- x ) dup word-%d 1 + word-%d swap word-%d drop ;\n" % named
            else:
                text += b": word-%d ( x -- x ) 1 + ;\n" % count
            count += 1
        names.append(os.path.join(folder, f"vocabulary-{number}"))
        with open(names[-1], "wb") as file:
            file.write(text)
    return names, count


def strings(path, size):
    """Strings of some forty characters, each dropped, in words. No two are the same."""
    count = 0
    with open(path, "wb") as file:
        file.write(b"USING: kernel ;")
        while file.tell() < size - 100:
            if count % UNITS_IN_A_WORD == 0:
                file.write(b"%s: w%d ( -- )\n" % (b" ;\n" if count else b"\n", count // UNITS_IN_A_WORD))
            file.write(b'"the string with the number %d, \\"%d\\"" drop\n' % (count, count))
            count += 1
        file.write(b";\n")
    return 0, b"checked %d definitions\n" % -(-count // UNITS_IN_A_WORD), b""


def comments(path, size):
    """Comments of some sixty characters, and an item."""
    line = b"! what stands here counts for nothing, as [ or a \" would elsewhere\n"
    with open(path, "wb") as file:
        file.write(b"1\n" + line * ((size - 2) // len(line)))
    return 0, b"", b""


# A word that hands each number to a callable, down to 1.
EACH_DOWN = b"""USING: kernel math ;
: each-down ( ..a n quot: ( ..a n -- ..a ) -- ..a ) over 0 > [ 2dup 2dip 1 - swap each-down ] [ 2drop ] if ; inline recursive
"""


def loops(path, count):
    """So many words, each with a loop of `times`, one of `while` and one of a row word of the file's own. Checks the file."""
    with open(path, "wb") as file:
        file.write(EACH_DOWN)
        for number in range(count):
            file.write(b": word-%d ( x -- y ) 3 [ %d + ] times [ dup 10 > ] [ 2 - ] while 4 [ + ] each-down ;\n" % (number, number))
    return 0, b"checked %d definitions\n" % (count + 1), b""


# `keep` and `bi` as row words: a use of either is one nested application.
KEEPING = b"""USING: kernel math prettyprint ;
: keeping ( ..a x quot: ( ..a x -- ..b ) -- ..b x ) over [ call ] dip ; inline
: both ( ..a x p: ( ..a x -- ..b ) q: ( ..b x -- ..c ) -- ..c ) [ keeping ] dip call ; inline
"""


def nested_uses(path, count):
    """A word of so many uses of row words like `keep` and `bi`, each in a callable of the one around it, and one of the prelude's `keep`
    and `bi`, as deep as these may nest."""
    text, deep = b"1 +", b"1 +"
    for number in range(count):
        text = b"[ %s ] keeping drop" % text if number % 2 else b"[ drop ] [ %s ] both" % text
    for number in range(24):
        deep = b"[ %s ] keep drop" % deep if number % 2 else b"[ drop ] [ %s ] bi" % deep
    with open(path, "wb") as file:
        file.write(KEEPING + b": w ( x -- y ) %s ; : v ( x -- y ) %s ; 5 w v .\n" % (text, deep))
    return 0, b"7\n", b""


GENERICS = 10


def classes_with_methods(path, count):
    """So many classes of tuples, each with a method of each of ten generic words, and a value of each class for one of these."""
    with open(path, "wb") as file:
        file.write(b"USING: accessors kernel math prettyprint ;\n")
        for generic in range(GENERICS):
            file.write(b"GENERIC: generic-%d ( x -- y )\n" % generic)
        for number in range(count):
            file.write(b"TUPLE: class-%d value-%d count ;\n" % (number, number % 7))
            for generic in range(GENERICS):
                file.write(b"M: class-%d generic-%d count>> %d + ;\n" % (number, generic, number % 100))
        file.write(b"0\n")
        for number in range(count):
            file.write(b"5 %d class-%d boa generic-%d +\n" % (number, number, number % GENERICS))
        file.write(b".\n")
    return 0, b"%d\n" % sum(number + number % 100 for number in range(count)), b""


def deep_hierarchy(path, count):
    """So many classes of tuples, each with the one before it as its parent and a method that goes on with the parent's."""
    with open(path, "wb") as file:
        file.write(b"USING: kernel math prettyprint ;\nGENERIC: depth ( x -- n )\nTUPLE: class-0 ;\nM: class-0 depth drop 1 ;\n")
        for number in range(1, count):
            file.write(b"TUPLE: class-%d < class-%d ;\n" % (number, number - 1))
            file.write(b"M: class-%d depth call-next-method 1 + ;\n" % number)
        file.write(b"class-%d new depth .\n" % (count - 1))
    return 0, b"%d\n" % count, b""


def wide_unions(path, count):
    """Classes of which all but twenty are singletons. The others are unions of all these and of the unions before, with a method each."""
    unions = 20
    names = [b"class-%d" % number for number in range(count - unions)]
    with open(path, "wb") as file:
        file.write(b"USING: kernel math prettyprint ;\nGENERIC: width ( x -- n )\nM: object width drop 0 ;\n")
        for name in names:
            file.write(b"SINGLETON: %s\n" % name)
        for number in range(unions):
            file.write(b"UNION: union-%d %s ;\n" % (number, b" ".join(names)))
            file.write(b"M: union-%d width call-next-method 1 + ;\n" % number)
            names.append(b"union-%d" % number)
        file.write(b"class-0 width .\n")
    return 0, b"%d\n" % unions, b""


# How many locals a word has that its innermost quotation names, and how many quotations stand around that.
KEPT = 60


def captures_in_levels(path, count):
    """So many words of sixty locals, each of which is kept by sixty quotations in one another."""
    names = [b"a%d" % number for number in range(KEPT)]
    text = b"[ " * KEPT + names[0] + b"".join(b" %s +" % name for name in names[1:]) + b" ] call" * KEPT
    with open(path, "wb") as file:
        file.write(b"USING: kernel math prettyprint ;\n")
        for number in range(count):
            file.write(b":: word-%d ( %s -- x ) %s ;\n" % (number, b" ".join(names), text))
        file.write(b"1 " * KEPT + b"word-%d .\n" % (count - 1))
    return 0, b"%d\n" % KEPT, b""


def words_with_locals(path, count):
    """So many words, each with locals of all sorts, a quotation and a fry that keep some. Checks the file."""
    with open(path, "wb") as file:
        file.write(b"USING: kernel math ;\n")
        for number in range(count):
            file.write(b":: word-%d ( a b -- c ) a b + :> d d %d * [ a + ] call d [| e | e '[ _ b - ] call ] call + ;\n" % (number, number))
    return 0, b"checked %d definitions\n" % count, b""


def kept_callables(path, count):
    """So many words, each with sixty known callables of which each keeps the one before it; the last is called."""
    with open(path, "wb") as file:
        file.write(b"USING: kernel math prettyprint ;\n:: keeping ( q -- q ) [ q call ] ; inline\n")
        for number in range(count):
            file.write(b": word-%d ( x -- y ) [ 1 + ]%s call ;\n" % (number, b" keeping" * KEPT))
        file.write(b"6 word-%d .\n" % (count - 1))
    return 0, b"7\n", b""


def chain_of_closures(path, count):
    """A word that makes so many callables, of which each keeps the one before it."""
    with open(path, "wb") as file:
        file.write(b"USING: kernel math prettyprint ;\n:: chain ( q n -- q ) n 0 > [ [ q drop ] n 1 - chain ] [ q ] if ;\n")
        file.write(b"[ ] %d chain .\n" % count)
    return 0, b"[ ... ]\n", b""


LITERALS_IN_A_WORD = 1_000
MOST_INPUTS = model.MOST_EFFECT_NAMES


def write_literals(path, count, call):
    """Writes a file of so many literals that take from 1 to 1,024 values in turn, a thousand in each word. A literal names some words of 64
    inputs and perhaps one of fewer. At the end one is called so, and 7 printed."""
    with open(path, "wb") as file:
        file.write(b"USING: kernel prettyprint ;\n")
        for inputs in range(1, MOST_INPUTS + 1):
            names, drops = b"a " * inputs, b"3drop " * (inputs // 3) + b"drop " * (inputs % 3)
            file.write(b": d%d ( %s-- ) %s;\n" % (inputs, names, drops))
        file.write(b": d ( %s-- ) d%d ;\n" % (b"a " * MOST_INPUTS, MOST_INPUTS))
        for first in range(0, count, LITERALS_IN_A_WORD):
            file.write(b": w%d ( -- )\n" % (first // LITERALS_IN_A_WORD))
            for number in range(first, min(count, first + LITERALS_IN_A_WORD)):
                whole, rest = divmod(number % model.MOST_TRIED_INPUTS + 1, MOST_INPUTS)
                file.write(b"[ %s%s] drop\n" % (b"d " * whole, b"d%d " % rest if rest else b""))
            file.write(b";\n")
        file.write(b"1 2 3 [ d3 ] %s 7 .\n" % call)


def effects_of_literals(path, count):
    """So many literals, of each of which the effect is found before the program runs, since a `call( )` asks for one."""
    write_literals(path, count, b"call( x y z -- )")
    return 0, b"7\n", b""


def literals(path, count):
    """So many literals, of which no effect is asked."""
    write_literals(path, count, b"call")
    return 0, b"7\n", b""


def checked_literals(path, count):
    """So many literals. Checks the file."""
    write_literals(path, count, b"call")
    return 0, b"checked %d definitions\n" % (MOST_INPUTS + 1 - -count // LITERALS_IN_A_WORD), b""


def first_example(path, _):
    """The first example of README."""
    with open(path, "wb") as file:
        file.write(b"USING: kernel math prettyprint ;\n: choose ( ? -- n ) [ 1 2 + ] [ 10 ] if ;   ! a word, and a comment\nt choose .\n")
    return 0, b"3\n", b""


# A word that calls itself: a call is all that it does, so a hundred million calls are open when the budget is spent.
RECURSION = b": spin ( -- ) spin ; spin\n"

# The same with a value on the stack for each open call, fifty million of both.
RECURSION_WITH_VALUES = b"USING: kernel ; : pile ( -- x ) 1 pile drop ; pile\n"

# A word that calls itself in a branch, at five ticks a turn and twenty million deep.
RECURSION_THROUGH_IF = b"USING: kernel ; : spin ( ? -- ) [ t spin ] [ ] if ; t spin\n"

# A word that composes a callable with another at each turn, at four ticks a turn.
COMPOSING = b"USING: kernel ; : grow ( q -- q ) [ ] compose grow ; [ ] grow\n"


def number(value):
    """The bytes of a number in an image."""
    spelled = b""
    while value > 127:
        spelled += bytes([value % 128 + 128])
        value //= 128
    return spelled + bytes([value])


def image_that_halts(path, count):
    """An image of so many instructions: integers of two bytes, and the `halt` behind them at which it starts."""
    integers = [b"\x02" + number(128 + value) for value in range(16_256)]
    whole, rest = divmod(count - 1, len(integers))
    with open(path, "wb") as file:
        file.write(b"FCI1" + bytes(8) + number(count))
        for _ in range(whole):
            file.write(b"".join(integers))
        file.write(b"".join(integers[:rest]) + b"\x00" + number(count - 1))
    return 0, b"", b""


def mebibytes(size):
    return f"{size >> 20} MiB"


def words(count):
    return f"{count:,}"


# name, what makes the source, its sizes, how a size is told, the most seconds for the last size, and what else than `run` it needs.
# Where it needs `check`, that is the command.
SORTS = [
    ("numbers and drops", numbers_and_drops, (SMALL, LARGE), mebibytes, 2.0, []),
    ("chains of +", chains_of_sums, (SMALL, LARGE), mebibytes, 2.0, []),
    ("small words", small_words, (2_500, 10_000), words, 1.0, []),
    ("chain of calls", chain_of_calls, (25_000, 100_000), words, 2.0, []),
    ("nested quotations", nested_quotations, (2_500, 10_000), words, 2.0, []),
    ("ifs, tall stack", branches_over_a_tall_stack, (25_000, 100_000), words, 2.0, []),
    ("inline words", inline_words, (2_500, 10_000), words, 2.0, []),
    ("inline recursion", led_to_a_recursive_word, (25_000, 100_000), words, 2.0, []),
    ("cycle", in_a_cycle, (25_000, 100_000), words, 1.0, ["DEFER:"]),
    ("led to a cycle", led_to_a_cycle, (25_000, 100_000), words, 1.0, ["DEFER:"]),
    ("vocabularies", many_vocabularies, (SMALL, LARGE), mebibytes, 0.8, ["IN:", "check"]),
    ("strings", strings, (SMALL, LARGE), mebibytes, 0.2, ["string", "check"]),
    ("comments", comments, (SMALL, LARGE), mebibytes, 0.2, []),
    ("dup compose", composed_twice, (63,), words, 0.5, []),
    ("loops", loops, (2_500, 10_000), words, 1.0, ["rows", "prelude", "check"]),
    ("nested uses", nested_uses, (60,), words, 0.1, ["rows", "prelude"]),
    ("classes", classes_with_methods, (250, 1_000), words, 1.0, ["TUPLE:", "prelude"]),
    ("deep hierarchy", deep_hierarchy, (1_024,), words, 0.3, ["TUPLE:", "prelude"]),
    ("wide unions", wide_unions, (1_024,), words, 0.3, ["TUPLE:", "prelude"]),
    ("captures, levels", captures_in_levels, (100, 400), words, 8.0, ["::"]),
    ("words with locals", words_with_locals, (2_500, 10_000), words, 1.0, ["::", "'[", "check"]),
    ("kept callables", kept_callables, (250, 1_000), words, 2.0, ["::"]),
    ("chain of closures", chain_of_closures, (250_000, 1_000_000), words, 4.0, ["::"]),
    ("effects", effects_of_literals, (25_000, 100_000), words, 5.0, ["call("]),
    ("literals", literals, (25_000, 100_000), words, 1.5, []),
    ("literals, checked", checked_literals, (25_000, 100_000), words, 1.0, ["check"]),
    ("first example", first_example, (1,), words, 0.004, ["prelude"]),
    ("recursion, if", spending(RECURSION_THROUGH_IF), (20_000_000,), words, 20.0, []),
    ("composing", spending(COMPOSING), (25_000_000,), words, 20.0, []),
    ("recursion", spending(RECURSION), (100_000_000,), words, 20.0, []),
    ("recursion, values", spending(RECURSION_WITH_VALUES), (50_000_000,), words, 20.0, []),
]


# Images that are executed: their name, what makes one, its numbers of instructions, and the most seconds for the last.
IMAGES = [
    ("image", image_that_halts, (5_592_000, 22_368_000), 4.0),
    ("small image", image_that_halts, (1,), 0.004),
]
# The most seconds in which the image of numbers and `drop`s is built.
MOST_SECONDS_OF_BUILD = 2.0


def run_once(words, folder, given=os.devnull):
    """Runs a program with its words, on the input of this name: its time in seconds, its peak in KiB, its status, what it printed and its note."""
    out = os.path.join(folder, "out")
    note = os.path.join(folder, "note")
    flags = os.O_WRONLY | os.O_CREAT | os.O_TRUNC
    actions = [(os.POSIX_SPAWN_OPEN, 0, given, os.O_RDONLY, 0)]
    actions += [(os.POSIX_SPAWN_OPEN, 1, out, flags, 0o600), (os.POSIX_SPAWN_OPEN, 2, note, flags, 0o600)]
    start = time.perf_counter()
    child = os.posix_spawn(words[0], words, os.environ, file_actions=actions)
    _, ended, used = os.wait4(child, 0)
    seconds = time.perf_counter() - start
    with open(out, "rb") as file:
        printed = file.read()
    with open(note, "rb") as file:
        noted = file.read()
    status = os.WEXITSTATUS(ended) if os.WIFEXITED(ended) else -os.WTERMSIG(ended)
    return seconds, used.ru_maxrss, status, printed, noted


def measure(words, make, size, folder, behind=()):
    """The length of the file of this size, and the times and the greatest peak of several runs of these words on it, with the words
    behind its name. A wrong answer ends the script."""
    source = os.path.join(folder, "source.factor")
    wanted = make(source, size)
    times, peak = [], 0
    for _ in range(RUNS):
        seconds, memory, status, printed, noted = run_once([*words, source, *behind], folder)
        if (status, printed, noted) != wanted:
            sys.exit(f"wrong answer: status {status}, output {printed[:80]!r}, note {noted[:80]!r}")
        times.append(seconds)
        peak = max(peak, memory)
    return os.path.getsize(source), times, peak


def thousand_files(folder):
    """Writes a thousand files. Gives their names and the number of their words."""
    names = [os.path.join(folder, f"file-{number}") for number in range(FILES)]
    count = 0
    for number, name in enumerate(names):
        text = b"USING: kernel math ;\n"
        while len(text) < BYTES_OF_A_FILE - 80:
            text += b": word-%d-%d ( x -- y ) dup * 3 + dup drop 7 - ;\n" % (number, len(text))
            count += 1
        with open(name, "wb") as file:
            file.write(text + b"\n" * (BYTES_OF_A_FILE - len(text)))
    return names, count


def compare_files(program, folder, names, count, failed):
    """Prints how many times as long a check of these files takes as one of a file with the same text, and adds a failure where that is too much."""
    one = os.path.join(folder, "one")
    with open(one, "wb") as whole:
        for name in names:
            with open(name, "rb") as file:
                whole.write(file.read())
    shortest = []
    for files in (names, [one]):
        runs = [run_once([program, "check", *files], folder) for _ in range(RUNS)]
        if any(run[2:] != (0, b"checked %d definitions\n" % count, b"") for run in runs):
            sys.exit(f"wrong answer: status {runs[0][2]}, output {runs[0][3][:80]!r}, note {runs[0][4][:80]!r}")
        shortest.append(min(run[0] for run in runs))
    many, single = shortest
    print(f"{'files':<20}{len(names):,} files take {many:.3f} s and one of the same text {single:.3f} s, {many / single:.2f} times as long")
    if many > MOST_RATIO_OF_FILES * single:
        failed.append(f"{len(names):,} files: {many / single:.2f} times as long, more than {MOST_RATIO_OF_FILES:g}")


def lines_of_definitions(path, count):
    """So many lines of a definition each, each of which names the one before."""
    with open(path, "wb") as file:
        file.write(b": word-0 ( x -- y ) 1 + ;\n")
        for number in range(1, count):
            file.write(b": word-%d ( x -- y ) dup * word-%d 3 + dup drop 7 - ;\n" % (number, number - 1))
    return 0, b"", b""


def lines_of_phrases(path, count):
    """So many lines of a phrase each, which leave one number."""
    with open(path, "wb") as file:
        file.write(b"0\n" + b"1 + dup * 1000 mod\n" * (count - 1))
    value, printed = 0, b"--- Data stack:\n0\n"
    for _ in range(count - 1):
        value = (value + 1) ** 2 % 1_000
        printed += b"--- Data stack:\n%d\n" % value
    return 0, printed, b""


def lines_of_classes(path, count):
    """A generic word, and then so many lines of a class and its method each."""
    with open(path, "wb") as file:
        file.write(b"GENERIC: value ( x -- n )\n")
        for number in range(count):
            file.write(b"TUPLE: class-%d slot ; M: class-%d value slot>> %d + ;\n" % (number, number, number))
        file.write(b"3 class-%d boa value .\n" % (count - 1))
    return 0, b"%d\n" % (count + 2), b""


# Sessions: their name, what makes the lines, and their numbers of lines.
SESSIONS = [
    ("lines, definitions", lines_of_definitions, (50, 200)),
    ("lines, phrases", lines_of_phrases, (50, 200)),
    ("lines, classes", lines_of_classes, (50, 200)),
]


def measure_session(program, make, count, folder):
    """The length of a session of so many lines, and the times and the greatest peak of several runs of it. A wrong answer ends the script."""
    source = os.path.join(folder, "lines")
    wanted = make(source, count)
    runs = [run_once([program, "listen"], folder, source) for _ in range(RUNS)]
    if any(run[2:] != wanted for run in runs):
        sys.exit(f"wrong answer: status {runs[0][2]}, output {runs[0][3][:80]!r}, note {runs[0][4][:80]!r}")
    return os.path.getsize(source), [run[0] for run in runs], max(run[1] for run in runs)


def measure_sessions(program, folder, longer, failed):
    """Measures sessions, and one of definitions beside a check of its lines. Each has so many times more lines."""
    for name, make, counts in SESSIONS:
        shortest = []
        for count in counts:
            length, times, peak = measure_session(program, make, count * longer, folder)
            shortest.append(min(times))
            show(name, f"{count * longer:,} lines", length, times, peak)
        compare(name, shortest, failed, MOST_RATIO_OF_SESSIONS)
        if make is lines_of_definitions:
            compare_with_check(program, shortest[1], counts[1] * longer, folder)


def compare_with_check(program, typed, count, folder):
    """Compares the time of a session of definitions with that of a check of the same lines."""
    source = os.path.join(folder, "lines")
    lines_of_definitions(source, count)
    with open(source, "rb") as file:
        text = file.read()
    with open(source, "wb") as file:
        file.write(b"USING: kernel math ;\n" + text)
    runs = [run_once([program, "check", source], folder) for _ in range(RUNS)]
    if any(run[2:] != (0, b"checked %d definitions\n" % count, b"") for run in runs):
        sys.exit(f"wrong answer: status {runs[0][2]}, output {runs[0][3][:80]!r}, note {runs[0][4][:80]!r}")
    ratio = typed / min(run[0] for run in runs)
    print(f"{'lines, definitions':<20}take {ratio:.2f} times as long as a check of them as one file")


def show(name, told, length, times, peak):
    """Prints what was measured."""
    print(f"{name:<20}{told:>14}{length:>10}{min(times):>10.3f} s{max(times):>10.3f} s{peak / 1024:>10.1f} MiB")


def measure_images(program, folder, failed):
    """Measures the images, and how long one takes to be built."""
    for name, make, counts, most_seconds in IMAGES:
        shortest = []
        for count in counts:
            length, times, peak = measure([program, "exec"], make, count, folder)
            shortest.append(min(times))
            show(name, f"{count:,} instr.", length, times, peak)
        if len(counts) == 2:
            compare(name, shortest, failed)
        limit(name, shortest[-1], most_seconds, failed)
    length, times, peak = measure([program, "build"], numbers_and_drops, LARGE, folder, ["-o", os.path.join(folder, "image")])
    show("building", mebibytes(LARGE), length, times, peak)
    limit("building", min(times), MOST_SECONDS_OF_BUILD, failed)


def limit(name, seconds, most_seconds, failed):
    """Adds a failure where the shortest time isn't below the most seconds."""
    if seconds >= most_seconds:
        failed.append(f"{name}: {seconds:.3f} s, not below {most_seconds:g} s")


def built(path):
    """The whole path of a built program. Where there is none the script ends."""
    program = os.path.abspath(path)
    if not os.access(program, os.X_OK):
        sys.exit(f"there is no program {program}: build it first")
    return program


def program_or(default):
    """The program that the command line names, or this one. Where there is none the script ends."""
    if len(sys.argv) > 2:
        sys.exit(f"usage: {os.path.basename(sys.argv[0])} [PROGRAM]")
    return built(sys.argv[1] if len(sys.argv) == 2 else default)


def compare(name, shortest, failed, most=MOST_RATIO):
    """Prints how many times as long the larger of two files takes, and adds a failure where that is too much."""
    ratio = shortest[1] / shortest[0]
    print(f"{name:<20}the larger takes {ratio:.2f} times as long")
    if ratio > most:
        failed.append(f"{name}: {ratio:.2f} times as long, more than {most:g}")


def finish(failed):
    """Prints what failed, and gives the status."""
    for line in failed:
        print(f"FAILED {line}")
    print("failed" if failed else "passed")
    return 1 if failed else 0


def main():
    longer = int(sys.argv.pop()) if len(sys.argv) == 3 else 1
    program = program_or(DEFAULT)
    print(f"{'source':<20}{'size':>14}{'bytes':>10}{'shortest':>12}{'longest':>12}{'peak memory':>14}")
    failed = []
    with tempfile.TemporaryDirectory() as folder:
        for name, make, sizes, told, most_seconds, needs in SORTS:
            if not model.BUILT.issuperset(needs):
                print(f"{name:<20}{'left out':>14}: it needs {' and '.join(needs)}")
                continue
            command = "check" if "check" in needs else "run"
            shortest = []
            for size in sizes:
                length, times, peak = measure([program, command], make, size, folder)
                shortest.append(min(times))
                show(name, told(size), length, times, peak)
            if len(sizes) == 2:
                compare(name, shortest, failed)
            limit(name, shortest[-1], most_seconds, failed)
        measure_images(program, folder, failed)
        if "listen" in model.BUILT:
            measure_sessions(program, folder, longer, failed)
        measure([*WITH_LITTLE_MEMORY, program, "run"], first_example, None, folder)
        if model.BUILT.issuperset(["files", "check"]):
            compare_files(program, folder, *thousand_files(folder), failed)
            compare_files(program, folder, *vocabularies_in_files(folder, LARGE), failed)
    return finish(failed)


if __name__ == "__main__":
    sys.exit(main())
