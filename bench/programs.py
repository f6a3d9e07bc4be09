#!/usr/bin/env python3
"""Measures programs that loop, call and change arrays and tuples all the time, and the same work in gforth and Lua, where these are
installed, and in CPython.

    python3 bench/programs.py [--counts] [PROGRAM]

PROGRAM is the built program, by default crates/factorc/out/factorc. With `--counts` no time is taken: all numbers are smaller, and for each
program it tells how many instructions of the processor it takes beside those of an empty one, by valgrind's callgrind, and how many times
as many as each of the others.

`times` runs an empty quotation five million times; in gforth it is an
empty word that is executed, and in Lua an empty function. The recursive Fibonacci tests for its least numbers at each call, and calls
itself twice for all others.

`sum` adds up an array of 500,000 by `each`; `map, filter` makes an array of three times each of its elements, and one of those that are
odd; `append` makes a string longer by a character 10,000 times, of which each is a new string; and `set-nth` marks every third, seventh
and eleventh element of an array of 1,000,000, and counts the marks by `filter`. In Lua and CPython the loops are functions of the same
names, which are handed functions, and each string is a new one too.

`dispatch` calls a method three million times on tuples of four classes in turn, each of which holds the next; in Lua they are tables that
hold closures, and in CPython objects of four classes. `slots` reads two slots of a tuple as often, and writes one.

`captures` makes a quotation that keeps three locals of its word and calls it, a million times; in Lua and CPython it is a closure over
three names. `fry` fills two holes and calls what that made as often; the others make a closure over the two arguments of a function.

`called` makes a quotation by `curry` and calls it five million times by `call`, and `tested` by `call( )`; in Lua and CPython it is a
closure over one name. `chain` makes a callable of a million others by `compose`, and calls it once by `call( )`, which tests it; such a
closure would be too deep for the others.

The script prints the shortest of several times and, of factorc, the ticks per second in it. It ends with status 1 where a program
answers wrongly, also where it takes other ticks than are told here, and where `tested` takes more than one and a half times as long as
`called`.
"""

import pathlib
import re
import shutil
import subprocess
import sys
import tempfile

import speed

IS_COUNTING = "--counts" in sys.argv
SHARE = 100 if IS_COUNTING else 1

TURNS = 5_000_000 // SHARE
NUMBER = 22 if IS_COUNTING else 32
ELEMENTS = 500_000 // SHARE
STRINGS = 10_000 // SHARE
PLACES = 1_000_000 // SHARE
STEPS = (3, 7, 11)
CALLS = 3_000_000 // SHARE
CLASSES = "abcd"
CLOSURES = 1_000_000 // SHARE
PARTS = 1_000_000 // SHARE
MOST_RATIO_OF_TESTS = 1.5


def fibonacci(number):
    """The Fibonacci number of this index, from 0 and 1 on."""
    now, after = 0, 1
    for _ in range(number):
        now, after = after, now + after
    return now


# Five items at the top level and seven in `times` before the first turn; 30 in each turn, of which one is the recursive call and three are
# the callable that drops the index and is empty; seven for the last test and `3drop`.
TIMES_TICKS = 5 + 7 + 30 * TURNS + 7

# Each call takes a tick and six for its test, and one that isn't the last takes seven besides its two calls; a number begins and `.` ends.
FIBONACCI_TICKS = 7 * (2 * fibonacci(NUMBER + 1) - 1) + 7 * (fibonacci(NUMBER + 1) - 1) + 2

# Eight items at the top level, eleven in `each` before the first turn, 32 in each turn and seven for the last test and `3drop`.
SUM_TICKS = 8 + 11 + 32 * ELEMENTS + 7

# What `map` takes with an empty quotation besides its own items, and then `filter` with what the flags take.
MAP_TICKS = 28 + 40 * ELEMENTS + 7
FILTER_TICKS = 4 + 28 + 40 * ELEMENTS + 7 + 1

# `odd?` takes seven ticks, and `3 *` two.
MAP_AND_FILTER_TICKS = 9 + MAP_TICKS + 2 * ELEMENTS + FILTER_TICKS + 7 * ELEMENTS

# As `times`, with two items in each turn.
APPEND_TICKS = 6 + 7 + 32 * STRINGS + 7

# How often each step marks an element, and how many have a mark in the end.
MARKS = sum(len(range(0, PLACES, step)) for step in STEPS)
MARKED = sum(any(place % step == 0 for step in STEPS) for place in range(PLACES))

# Each turn of `while` takes thirteen for its test and fifteen for the mark. The flags of `filter` are the elements.
SET_NTH_TICKS = 3 + 23 * len(STEPS) + 28 * MARKS + 2 + 4 + 28 + 40 * PLACES + 7 + 1 + 2

# Fifteen items at the top level and seven in `times` before the first turn; 30 in each turn and six in the generic word and its method;
# seven for the last test and `3drop`, and two more.
DISPATCH_TICKS = 15 + 7 + 36 * CALLS + 7 + 2

# As these, with six items in each turn.
SLOTS_TICKS = 7 + 7 + 36 * CALLS + 7 + 2

# Five items at the top level and `.`; four inputs are bound, and four items stand in the word; then as `times`, with eight items in each
# turn, of which five are those of the quotation.
CAPTURES_TICKS = 5 + 4 + 4 + 7 + 38 * CLOSURES + 7 + 1

# As `times`, with eight items in each turn, of which three are those of the fry.
FRY_TICKS = 5 + 7 + 38 * CLOSURES + 7

# Three items at the top level; one input is bound, and eight items stand in the word; then as `times`, with four items in each turn, of
# which one is the value of the callable. A call that is tested takes as many.
CALLED_TICKS = 3 + 1 + 8 + 7 + 34 * TURNS + 7

# Five items at the top level; five in the word and three in `first`; then as `times`, with two items in each turn. The callable takes a tick
# for each part that was composed, and two for the items of each literal.
CHAIN_TICKS = 5 + 5 + 3 + 7 + 32 * PARTS + 7 + PARTS + 2 * (PARTS + 1)

TIMES = {
    "factorc": f"USING: math prettyprint ; 7 {TURNS:,} [ ] times .",
    "gforth": f": times swap 0 ?do dup >r execute r> loop drop ; : nothing ; 7 {TURNS} ' nothing times 0 .r cr bye",
    "lua5.4": f"local function times(n, f) for i = 1, n do f() end end times({TURNS}, function() end) print(7)",
}

FIBONACCI = {
    "factorc": f"USING: kernel math prettyprint ; : fib ( n -- m ) dup 2 < [ ] [ dup 1 - fib swap 2 - fib + ] if ; {NUMBER} fib .",
    "gforth": f": fib dup 2 < if else dup 1 - recurse swap 2 - recurse + then ; {NUMBER} fib 0 .r cr bye",
    "lua5.4": f"local function fib(n) if n < 2 then return n end return fib(n - 1) + fib(n - 2) end print(fib({NUMBER}))",
}

SUM = {
    "factorc": f"USING: kernel math sequences arrays prettyprint ; {ELEMENTS:,} <iota> >array 0 swap [ + ] each .",
    "lua5.4": f"""
local function each(a, f) for i = 1, #a do f(a[i]) end end
local a = {{}}
for i = 1, {ELEMENTS} do a[i] = i - 1 end
local s = 0
each(a, function(x) s = s + x end)
print(s)
""",
    "python3": f"""
def each(a, f):
    for x in a:
        f(x)

def main():
    s = 0
    def add(x):
        nonlocal s
        s = s + x
    each(list(range({ELEMENTS})), add)
    print(s)

main()
""",
}

MAP_AND_FILTER = {
    "factorc": f"USING: math sequences arrays prettyprint ; {ELEMENTS:,} <iota> >array [ 3 * ] map [ odd? ] filter length .",
    "lua5.4": f"""
local function map(a, f) local b = {{}} for i = 1, #a do b[i] = f(a[i]) end return b end
local function filter(a, f) local b = {{}} for i = 1, #a do if f(a[i]) then b[#b + 1] = a[i] end end return b end
local a = {{}}
for i = 1, {ELEMENTS} do a[i] = i - 1 end
print(#filter(map(a, function(x) return 3 * x end), function(x) return x % 2 == 1 end))
""",
    "python3": f"""
def map_(a, f):
    return [f(x) for x in a]

def filter_(a, f):
    return [x for x in a if f(x)]

print(len(filter_(map_(list(range({ELEMENTS})), lambda x: 3 * x), lambda x: x % 2 == 1)))
""",
}

# CPython makes a string longer in its place where no other name holds it.
APPEND = {
    "factorc": f'USING: math sequences prettyprint ; "" {STRINGS:,} [ "a" append ] times length .',
    "lua5.4": f"""
local function times(n, f) for i = 1, n do f() end end
local s = ""
times({STRINGS}, function() s = s .. "a" end)
print(#s)
""",
    "python3": f"""
def times(n, f):
    for _ in range(n):
        f()

def main():
    s = held = ""
    def append():
        nonlocal s, held
        held = s
        s = held + "a"
    times({STRINGS}, append)
    print(len(s))

main()
""",
}

SET_NTH = {
    "factorc": f"""
USING: kernel math sequences arrays prettyprint ;
: mark ( array step -- array )
    swap 0 swap [ 2dup length < ] [ 2dup t -rot set-nth [ over + ] dip ] while 2nip ;
{PLACES:,} f <array> {" ".join(f"{step} mark" for step in STEPS)} [ ] filter length .
""",
    "lua5.4": f"""
local function mark(a, step) local i = 0 while i < #a do a[i + 1] = true i = i + step end end
local function filter(a, f) local b = {{}} for i = 1, #a do if f(a[i]) then b[#b + 1] = a[i] end end return b end
local a = {{}}
for i = 1, {PLACES} do a[i] = false end
{" ".join(f"mark(a, {step})" for step in STEPS)}
print(#filter(a, function(x) return x end))
""",
    "python3": f"""
def mark(a, step):
    i = 0
    while i < len(a):
        a[i] = True
        i = i + step

def filter_(a, f):
    return [x for x in a if f(x)]

a = [False] * {PLACES}
{"; ".join(f"mark(a, {step})" for step in STEPS)}
print(len(filter_(a, lambda x: x)))
""",
}

CLASSES_OF_NODES = " ".join(f"TUPLE: {name} < node ;" for name in CLASSES)
METHODS_OF_NODES = " ".join(f"M: {name} step next>> [ {number} + ] dip ;" for number, name in enumerate(CLASSES, 1))

DISPATCH = {
    "factorc": f"""
USING: accessors kernel math prettyprint ;
TUPLE: node next ; {CLASSES_OF_NODES}
GENERIC: step ( n node -- n node ) {METHODS_OF_NODES}
a new dup d boa c boa b boa >>next 0 swap {CALLS:,} [ step ] times drop .
""",
    "lua5.4": f"""
local function times(n, f) for i = 1, n do f() end end
local function node(k, next) return {{next = next, step = function(self, n) return n + k, self.next end}} end
local a = node(1)
a.next = node(2, node(3, node(4, a)))
local n, o = 0, a
times({CALLS}, function() n, o = o.step(o, n) end)
print(n)
""",
    "python3": f"""
class Node:
    def __init__(self, next):
        self.next = next

class A(Node):
    def step(self, n):
        return n + 1, self.next

class B(Node):
    def step(self, n):
        return n + 2, self.next

class C(Node):
    def step(self, n):
        return n + 3, self.next

class D(Node):
    def step(self, n):
        return n + 4, self.next

def times(n, f):
    for _ in range(n):
        f()

def main():
    a = A(None)
    a.next = B(C(D(a)))
    n, o = 0, a
    def step():
        nonlocal n, o
        n, o = o.step(n)
    times({CALLS}, step)
    print(n)

main()
""",
}

SLOTS = {
    "factorc": f"""
USING: accessors kernel math prettyprint ;
TUPLE: counter n step ;
0 3 counter boa {CALLS:,} [ dup n>> over step>> + >>n ] times n>> .
""",
    "lua5.4": f"""
local function times(n, f) for i = 1, n do f() end end
local c = {{n = 0, step = 3}}
times({CALLS}, function() c.n = c.n + c.step end)
print(c.n)
""",
    "python3": f"""
class Counter:
    def __init__(self, n, step):
        self.n = n
        self.step = step

def times(n, f):
    for _ in range(n):
        f()

def main():
    c = Counter(0, 3)
    def add():
        c.n = c.n + c.step
    times({CALLS}, add)
    print(c.n)

main()
""",
}

CAPTURES = {
    "factorc": f"""
USING: kernel math prettyprint ;
:: adding ( a b c n -- sum ) 0 n [ [ a b c + + ] call + ] times ;
1 2 3 {CLOSURES:,} adding .
""",
    "lua5.4": f"""
local function times(n, f) for i = 1, n do f() end end
local function adding(a, b, c, n)
    local s = 0
    times(n, function()
        local f = function() return a + b + c end
        s = s + f()
    end)
    return s
end
print(adding(1, 2, 3, {CLOSURES}))
""",
    "python3": f"""
def times(n, f):
    for _ in range(n):
        f()

def adding(a, b, c, n):
    s = 0
    def turn():
        nonlocal s
        f = lambda: a + b + c
        s = s + f()
    times(n, turn)
    return s

print(adding(1, 2, 3, {CLOSURES}))
""",
}

FRY = {
    "factorc": f"USING: kernel math prettyprint ; 0 {CLOSURES:,} [ 3 4 '[ _ _ + ] call + ] times .",
    "lua5.4": f"""
local function times(n, f) for i = 1, n do f() end end
local function filled(a, b) return function() return a + b end end
local s = 0
times({CLOSURES}, function() s = s + filled(3, 4)() end)
print(s)
""",
    "python3": f"""
def times(n, f):
    for _ in range(n):
        f()

def filled(a, b):
    return lambda: a + b

def main():
    s = 0
    def turn():
        nonlocal s
        s = s + filled(3, 4)()
    times({CLOSURES}, turn)
    print(s)

main()
""",
}

LUA_OF_CALLED = f"""
local function times(n, f) for i = 1, n do f() end end
local function curry(x, f) return function(y) return f(y, x) end end
local q = curry(1, function(a, b) return a + b end)
local s = 0
times({TURNS}, function() s = q(s) end)
print(s)
"""

PYTHON_OF_CALLED = f"""
def times(n, f):
    for _ in range(n):
        f()

def curry(x, f):
    return lambda y: f(y, x)

def main():
    q = curry(1, lambda a, b: a + b)
    s = 0
    def turn():
        nonlocal s
        s = q(s)
    times({TURNS}, turn)
    print(s)

main()
"""

ADDING = "USING: kernel math prettyprint ; :: adding ( n -- sum ) 1 [ + ] curry :> q 0 n [ q CALL ] times ; NUMBER adding ."
ADDING = ADDING.replace("NUMBER", f"{TURNS:,}")

CALLED = {"factorc": ADDING.replace("CALL", "call"), "lua5.4": LUA_OF_CALLED, "python3": PYTHON_OF_CALLED}

TESTED = {"factorc": ADDING.replace("CALL", "call( x -- y )")}

CHAIN = {
    "factorc": f"""
USING: kernel math prettyprint sequences ;
: chain ( n -- quot ) {{ [ 1 + ] }} first swap [ [ 1 + ] compose ] times ;
0 {PARTS:,} chain call( x -- y ) .
""",
}

# The programs that run the same work, and where they are.
OTHERS = {"gforth": shutil.which("gforth"), "lua5.4": shutil.which("lua5.4"), "python3": sys.executable}

# name, what it prints, its ticks, and its text for each program that runs it
PROGRAMS = [
    ("times", 7, TIMES_TICKS, TIMES),
    ("fibonacci", fibonacci(NUMBER), FIBONACCI_TICKS, FIBONACCI),
    ("sum", ELEMENTS * (ELEMENTS - 1) // 2, SUM_TICKS, SUM),
    ("map, filter", ELEMENTS // 2, MAP_AND_FILTER_TICKS, MAP_AND_FILTER),
    ("append", STRINGS, APPEND_TICKS, APPEND),
    ("set-nth", MARKED, SET_NTH_TICKS, SET_NTH),
    ("dispatch", CALLS // 4 * sum(range(1, 5)), DISPATCH_TICKS, DISPATCH),
    ("slots", 3 * CALLS, SLOTS_TICKS, SLOTS),
    ("captures", 6 * CLOSURES, CAPTURES_TICKS, CAPTURES),
    ("fry", 7 * CLOSURES, FRY_TICKS, FRY),
    ("called", TURNS, CALLED_TICKS, CALLED),
    ("tested", TURNS, CALLED_TICKS, TESTED),
    ("chain", PARTS + 1, CHAIN_TICKS, CHAIN),
]


def printing(text, answer):
    """What makes a source of this text, which prints this number."""

    def make(path, _):
        with open(path, "w", encoding="ascii") as file:
            file.write(text + "\n")
        return 0, b"%d\n" % answer, b""

    return make


def spent_one_before(text, ticks):
    """What makes a source of this text, which lacks one tick to its end."""

    def make(path, _):
        with open(path, "w", encoding="ascii") as file:
            file.write(text + "\n")
        return 6, b"", b"spent: %d ticks\n" % (ticks - 1)

    return make


def shortest(words, make, folder):
    """The shortest of several times of these words on what this makes. A wrong answer ends the script."""
    return min(speed.measure(words, make, None, folder)[1])


# A program that does nothing but print 7.
EMPTY = {"factorc": "USING: prettyprint ; 7 .", "gforth": "7 0 .r cr bye", "lua5.4": "print(7)", "python3": "print(7)"}


def counted(words, text, answer, folder):
    """How many instructions these words take on a source of this text, which prints this number. A wrong answer ends the script."""
    source, told = pathlib.Path(folder, "source"), pathlib.Path(folder, "told")
    source.write_text(text + "\n", encoding="ascii")
    tool = ["valgrind", "--tool=callgrind", f"--callgrind-out-file={folder}/out", f"--log-file={told}"]
    done = subprocess.run([*tool, *words, str(source)], capture_output=True, text=True)
    if done.stdout != f"{answer}\n":
        sys.exit(f"{words}: {done.stdout!r} and not {answer}")
    return int(re.search(r"Collected : (\d+)", told.read_text())[1])


def count():
    """Tells the instructions of each program."""
    program = speed.program_or(speed.DEFAULT)
    tools = {"factorc": [program, "run"], **{name: [path] for name, path in OTHERS.items() if path}}
    print(f"{'program':<12}{'in':<10}{'instructions':>16}{'factorc takes':>18}")
    with tempfile.TemporaryDirectory() as folder:
        starts = {name: counted(words, EMPTY[name], 7, folder) for name, words in tools.items()}
        for name, answer, _, texts in PROGRAMS:
            for tool, words in tools.items():
                if tool in texts:
                    took = counted(words, texts[tool], answer, folder) - starts[tool]
                    if tool == "factorc":
                        own, told = took, ""
                    else:
                        told = f"{own / took:.1f} times as many"
                    print(f"{name:<12}{tool:<10}{took:>16,}{told:>24}", flush=True)
        for tool, start in starts.items():
            print(f"{'empty':<12}{tool:<10}{start:>16,}", flush=True)
    return 0


def main():
    if IS_COUNTING:
        sys.argv.remove("--counts")
        return count()
    program = speed.program_or(speed.DEFAULT)
    print(f"{'program':<12}{'in':<10}{'shortest':>12}{'ticks':>14}{'ticks per second':>20}")
    took = {}
    with tempfile.TemporaryDirectory() as folder:
        for name, answer, ticks, texts in PROGRAMS:
            text = texts["factorc"]
            took[name] = seconds = shortest([program, "run", "--steps", str(ticks)], printing(text, answer), folder)
            shortest([program, "run", "--steps", str(ticks - 1)], spent_one_before(text, ticks), folder)
            print(f"{name:<12}{'factorc':<10}{seconds:>10.3f} s{ticks:>14,}{ticks / seconds:>20,.0f}")
            for other, path in OTHERS.items():
                if other not in texts:
                    continue
                if path:
                    print(f"{name:<12}{other:<10}{shortest([path], printing(texts[other], answer), folder):>10.3f} s")
                else:
                    print(f"{name:<12}{other:<10}{'not installed':>12}")
    ratio = took["tested"] / took["called"]
    print(f"calls that are tested take {ratio:.2f} times as long as others")
    told = f"tested: {ratio:.2f} times as long as called, more than {MOST_RATIO_OF_TESTS:g}"
    return speed.finish([told] if ratio > MOST_RATIO_OF_TESTS else [])


if __name__ == "__main__":
    sys.exit(main())
