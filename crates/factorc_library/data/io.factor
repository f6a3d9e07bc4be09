! Lines of the input, and texts of values, by the names and effects that Factor has for them. It needs `lib/sequences.factor` and
! `lib/vectors.factor` before it.
!
! The word `.` of the tool tells every value, with a newline behind it. Here `unparse` makes the same text of an integer, a string, `t`, `f`,
! an iota, and an array of these. No word gives the name of a word or the slots of a tuple: a class of tuples or a singleton may have a method
! of `unparse*`, as `M: point unparse* nip x>> unparse "point " prepend ;`. Another value is thrown.

IN: io
USING: kernel sequences vectors ;
QUALIFIED-WITH: growable growable

! Runs the callable on each line that is left of the input.
: each-line ( ..a quot: ( ..a line -- ..a ) -- ..a )
    [ readln dup ] swap while drop ; inline

! An array of all lines that are left of the input.
: read-lines ( -- seq )
    16 <vector> [ [ push ] curry each-line ] keep growable:>array ;

! Writes a space.
: bl ( -- ) " " write ;

IN: prettyprint
USING: arrays combinators io kernel math math.parser sequences splitting strings ;

! The text of a value. `level` is 1 for the value itself, 2 for an element of it, and so on; an array of level 17 is `...`.
GENERIC: unparse* ( level obj -- str )

M: object unparse* nip throw ;

M: integer unparse* nip number>string ;

M: t unparse* 2drop "t" ;

M: f unparse* 2drop "f" ;

M: iota unparse* nip length number>string "<iota " ">" surround ;

M: string unparse*
    nip "\\" "\\\\" replace "\"" "\\\"" replace
    "\n" "\\n" replace "\t" "\\t" replace "\r" "\\r" replace
    "\"" "\"" surround ;

M: array unparse*
    {
        { [ over 16 > ] [ 2drop "..." ] }
        { [ dup empty? ] [ 2drop "{ }" ] }
        [ swap 1 + swap [ unparse* ] with map " " join "{ " " }" surround ]
    } cond ;

! The text of a value, as `.` tells it.
: unparse ( obj -- str ) 1 swap unparse* ;

! Writes the text of a value, as `.` tells it, without a newline.
: pprint ( obj -- ) unparse write ;
