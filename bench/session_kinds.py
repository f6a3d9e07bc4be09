"""The kinds of cases about the listener: sessions of up to some forty lines."""

import model
from call_kinds import tested_callables
from class_kinds import classes
from kinds import Case, apart, command_lines, forms, guided, happens, one_row_word, running, sharing

# Lines. NAME is one of few names, NUMBER a number, and the rest stands as it is.
PHRASES = apart(
    """
    NUMBER  NUMBER NUMBER  NUMBER NUMBER +  dup  dup *  drop  swap  over  +  -  *  2drop  .  dup .  nip  rot  NUMBER .  "a"  "a" print  "b" write nl
    "a" "b" append  { }  { NUMBER 1 }  { NUMBER }  dup length .  dup first .  NUMBER 0 pick set-nth  dup NUMBER suffix  1array  NUMBER 1array
    [ ]  [ 1 + ]  [ NUMBER ] call  [ dup ] dip  [ NUMBER . ]  [ * ] compose  NUMBER [ + ] curry  call( -- )  call( -- x )  call( x -- x )
    call( x x -- x )  \\ NAME  \\ NAME execute( -- x )  NAME  NAME NAME  NAME .  drop NAME  t  f  t [ 1 ] [ 2 ] if  [ 1 ] [ 2 ] if  not
    3 [ NUMBER . ] times  3 <iota> [ . ] each  { 1 2 3 } [ NUMBER + ] map  0 <iota>  readln  readln .  readln print  readln drop readln
    readln dup [ . ] [ drop ] if  [ readln dup ] [ . ] while drop  readln string>number  readln readln append
    NUMBER 0 /i  0 0 /i  "x" throw  NUMBER throw  1 "a" +  { } first  "x" write 1 throw  170141183460469231731687303715884105727 1 +
    { 1 } dup NUMBER 0 pick set-nth  dup 5 0 pick set-nth 1 throw  NAME new  1 NAME boa  dup NAME?  x>>  NUMBER >>x  dup x>> .  NUMBER over x<<
    '[ NUMBER + ] call( x -- x )  NUMBER '[ _ ]  '[ _ _ ]  [| a | a a ] call( x -- x x )  :> a a  swap drop  { [ dup ] [ ] } cond
    { { [ dup ] [ NUMBER ] } [ NUMBER ] } cond  NAME execute  drop drop  dup dup dup  2dup =  eq?  NUMBER NUMBER = .
    """
)

DEFINITIONS = apart(
    """
    : NAME ( -- ) ;  : NAME ( -- x ) NUMBER ;  : NAME ( -- x ) NAME ;  : NAME ( x -- y ) NUMBER + ;  : NAME ( x -- y ) NAME ;
    : NAME ( -- ) NUMBER ;  : NAME ( x -- x ) ;  : NAME ( -- x ) readln ;  : NAME ( -- * ) "a" throw ;  : NAME ( x -- ) . ;
    : NAME ( q -- x ) call ; inline  : NAME ( ..a q: ( ..a -- ..b ) -- ..b ) call ; inline  : NAME ( -- x ) NAME ; inline
    :: NAME ( a b -- c ) b a - ;
    : NAME ( n -- ) dup 0 > [ 1 - NAME ] [ drop ] if ;  : NAME ( -- x ) { NUMBER } ;  : NAME ( -- x ) [ NUMBER ] ;  : NAME ( -- q ) NUMBER '[ _ NAME ] ;
    SYMBOL: NAME  CONSTANT: NAME NUMBER  CONSTANT: NAME { NUMBER 2 }  CONSTANT: NAME { NUMBER { 1 } }  DEFER: NAME  DEFER: NAME : NAME ( -- x ) NAME ;
    TUPLE: NAME ;  TUPLE: NAME x ;  TUPLE: NAME < NAME y ;  UNION: NAME NAME integer ;  UNION: NAME NAME NAME ;  SINGLETON: NAME
    GENERIC: NAME ( a -- b )  GENERIC: NAME ( x y -- z )  GENERIC: NAME ( -- )  M: integer NAME ;  M: object NAME drop NUMBER ;  M: NAME NAME drop NUMBER ;
    M: NAME NAME NAME ;  M: tuple NAME drop "t" ;  M: word NAME drop "w" ;  M: integer NAME call-next-method ;  M: sequence NAME length ;  C: NAME NAME
    MAIN: NAME  M: string NAME ; inline  : NAME ( x -- y ) NAME NAME ;
    """
)

# Lines that no session refuses, but for a name that is defined already.
BEFORE = apart(
    """
    1 2 3  1 2 3  "a" "b" 5  { 1 2 } { 3 }  [ 1 + ] [ ]  : NAME ( -- x ) NUMBER ;  : NAME ( x -- y ) 1 + ;  : NAME ( x -- x x ) dup ;  SYMBOL: NAME
    TUPLE: NAME x ;
    GENERIC: NAME ( a -- b )  SINGLETON: NAME  CONSTANT: NAME { NUMBER 2 }  : NAME ( q -- x ) call ; inline  IN: a : NAME ( -- x ) NUMBER ; IN: scratchpad
    """
)

SCOPES = apart(
    """
    IN: a  IN: b  IN: scratchpad  IN: a.private  IN: kernel  USE: a  USE: b  USE: math  USE: nowhere  USING: a b ;  USING: a nowhere ;  USE: a.private
    FROM: a => NAME ;  FROM: a => NAME NAME ;  FROM: math => + ;  FROM: nowhere => NAME ;  QUALIFIED-WITH: a q  QUALIFIED-WITH: b q  q:NAME  m:+
    QUALIFIED-WITH: math m  <PRIVATE  PRIVATE>  <PRIVATE : NAME ( -- x ) NUMBER ; PRIVATE>  IN: a : NAME ( -- x ) NUMBER ; IN: scratchpad
    """
)

# Lines that begin a text, and lines that end one, that go on with it, or that spoil it.
BEGINNINGS = apart(
    """
    [  [ NUMBER  {  { NUMBER  : NAME  : NAME (  : NAME ( -- x )  : NAME ( -- x ) NUMBER  :: NAME ( a --  USING:  USING: a  FROM: a  CONSTANT:  TUPLE: NAME
    TUPLE: NAME x  UNION: NAME  M:  M: integer NAME  GENERIC: NAME  GENERIC: NAME (  C: NAME  DEFER:  SYMBOL:  IN:  USE:  \\  call(  [| a  '[ _  NUMBER [ [
    : NAME ( -- x ) "a"  NUMBER :>  QUALIFIED-WITH: a
    """
)
ENDINGS = apart('] ] call  ;  }  )  ) ;  NUMBER ;  -- x ) NUMBER ;  x ;  NAME  NAME ;  -- )  ] ;  | a ]  => NAME ;  "  ! a  NUMBER  [  } } ]  _ ]  integer  a')

ODD = apart(r'''"  "a  "\x"  a"b  ]  }  ;  )  --  |  nosuch  :  inline  _  @  call-next-method  ! only a comment  1 ! 2  [ ] ]  1 2 3 ;  ( -- )  x:  "a"b  "a\"''')

# Bytes that are no text.
NO_TEXTS = [b"\xff", b"1 \xc3", b"\xed\xa0\x80 .", b"! \x80", b'"\xff"', b"\xc3\xa9", b"\x00", b"1\r", b"\x0b\x0c"]

NAMES = "v w w k p q".split()
NUMBERS = "0 1 2 3 -1 7 100 18446744073709551616".split()


def filled(chance, text):
    """A line with a name and a number put for each NAME and NUMBER."""
    while "NAME" in text:
        text = text.replace("NAME", chance.choice(NAMES), 1)
    while "NUMBER" in text:
        text = text.replace("NUMBER", chance.choice(NUMBERS), 1)
    return text


def some_line(chance):
    """A line of some sort; most have a phrase."""
    texts = chance.choices([PHRASES, DEFINITIONS, SCOPES, BEGINNINGS, ODD, [""]], [60, 30, 5, 3, 2, 1])[0]
    text = " ".join(filled(chance, chance.choice(texts)) for _ in range(chance.choice([1, 1, 1, 2, 3]) if texts in (PHRASES, DEFINITIONS) else 1))
    return text if not happens(chance, 0.1) else f"{text} {filled(chance, chance.choice(PHRASES))}"


def some_lines(chance):
    """A few lines: one of some sort, or a text over several lines, with what ends it or not."""
    if happens(chance, 0.9):
        return [some_line(chance)]
    between = [filled(chance, chance.choice(PHRASES + [""])) for _ in range(chance.choice([0, 0, 0, 1, 2]))]
    return [filled(chance, chance.choice(BEGINNINGS)), *between, filled(chance, chance.choice(ENDINGS))]


def heard(chance, lines):
    """The case of a session on these lines, which are bytes. The input may end anywhere."""
    given = b"".join(line + b"\n" for line in lines)
    if happens(chance, 0.3):
        given = given[:-1]
    elif happens(chance, 0.15):
        given = given[: chance.randrange(len(given) + 1)]
    return Case(["listen"], {}, given)


def sessions(chance):
    """Aims at what stands between lines: short lines of all sorts over a few names. Most begin with some values and words."""
    lines = [filled(chance, chance.choice(BEFORE)) for _ in range(chance.choice([0, 2, 4, 6]))]
    most = chance.choice([3, 10, 20, 40])
    while len(lines) < most:
        lines.extend(some_lines(chance))
    lines = [line.encode() for line in lines]
    if happens(chance, 0.1):
        lines.insert(chance.randrange(len(lines) + 1), chance.choice(NO_TEXTS))
    return heard(chance, lines)


def typed(chance):
    """Aims at programs of other kinds whose lines are typed: broken at spaces, here and there in a line of their own."""
    source = chance.choice([running, guided, one_row_word, classes, tested_callables, sharing, forms])(chance)
    source = source if isinstance(source, bytes) else next(iter(source.files.values()))
    share = chance.choice([0.02, 0.1, 0.3])
    lines = b"".join(b"\n" if byte == 32 and happens(chance, share) else bytes([byte]) for byte in source).split(b"\n")
    for _ in range(chance.choice([0, 0, 1, 3])):
        lines.insert(chance.randrange(len(lines) + 1), some_line(chance).encode())
    return heard(chance, lines)


def methods_later(chance):
    """Aims at classes and methods that come behind the words that call their generics."""
    of = ["TUPLE: p x ;", "TUPLE: q < p y ;", "SINGLETON: s", "UNION: u p s integer ;", "UNION: v u string ;", "SYMBOL: k"]
    on = ["p", "q", "s", "u", "v", "integer", "object", "tuple", "word", "sequence", "string", "callable", "boolean", "t", "f", "nosuch"]
    values = ["1", '"a"', "p new", "q new", "s", "k", "{ 1 }", "[ ]", "t", "f", "\\ s", "\\ dup", "\\ p"]
    lines = ["GENERIC: g ( a -- b )", ": all ( a -- b ) g ;", f"{chance.choice(values[4:6] + values[:2])} dup g .", *of]
    for _ in range(chance.choice([3, 8, 20])):
        body = chance.choice(["drop 1", 'drop "m"', "", "call-next-method", "dup . call-next-method", "drop 0 0 /i", "all"])
        method = f"M: {chance.choice(on)} g {body} ;"
        value = chance.choice(values)
        phrases = [f"{value} all .", f"{value} g", f"{value} \\ g execute( a -- b )", ".", "drop"]
        lines.insert(chance.randrange(2, len(lines) + 1), chance.choice([method, method, *phrases]))
    return heard(chance, [line.encode() for line in lines])


def changed_arrays(chance):
    """Aims at objects that keep what lines did to them, also lines that fail."""
    lines = ["CONSTANT: c { 0 { 1 } }", ": w ( -- x ) { 5 } ;"]
    texts = apart(
        """
        NUMBER 0 c set-nth  c .  c  dup  NUMBER 0 pick set-nth  w  w .  NUMBER 0 w set-nth  w c eq? .  c second .  c second  c c = .  NUMBER 0 c second set-nth
        NUMBER 0 c set-nth 1 throw  w NUMBER 0 pick set-nth 0 0 /i  { NUMBER }  dup first .  drop  swap  c dup 0 swap set-nth  dup .  { 7 } 0 c set-nth
        NUMBER 0 pick set-nth foo  2dup eq? .  w 1 suffix  { NUMBER } dup 1 throw  w 1 c set-nth  clear  c w append .  [ c ]  call( -- x ) .  '[ w _ ] drop
        """
    )
    for _ in range(chance.choice([5, 12, 30])):
        lines.append(" ".join(filled(chance, chance.choice(texts)) for _ in range(chance.choice([1, 1, 2]))))
    return heard(chance, [line.encode() for line in lines])


def long_lines(chance):
    """Aims at the longest lines, and at lines that are too long."""
    size = model.MOST_LINE_BYTES + chance.choice([-1, 0, 0, 1, 1, 2])
    text = chance.choice([b"! ", b'"', b"1 ", b""]) + b"[ 1"
    lines = [b"1 2", chance.choice([b"[ 3", b"readln length .", b"+"]), text.ljust(size, chance.choice([b"a", b" "])), b"2", b"] call"]
    return heard(chance, lines[chance.choice([0, 1]) :])


def other_words(chance):
    """Aims at command lines near `listen`."""
    words = chance.choice([["listen", "a"], ["listen", "--stack"], ["listen", ""], ["Listen"], ["--listen"], ["listen", "listen"]])
    return Case(words, {}, b"1 .\n") if happens(chance, 0.7) else command_lines(chance)


NEEDED = ["listen", "readln", "\\", "execute", "call(", "'[", "{", "sequence-words", "prelude", "built-in-classes", "IN:", "TUPLE:", "cond"]

# Each kind, how many shares of the time it has, and what it needs.
SESSION_KINDS = [
    (sessions, 8, NEEDED),
    (typed, 4, NEEDED),
    (methods_later, 3, NEEDED),
    (changed_arrays, 2, NEEDED),
    (long_lines, 1, NEEDED),
    (other_words, 1, NEEDED),
]
