! Tests of `lib/combinators.factor`. Each line writes what it leaves, the top of the stack first.

USING: combinators kernel math sequences prettyprint ;
IN: combinators-tests

1 2 3 [ + + ] 3keep . . . .
7 2 [ - ] [ * ] 2bi . .
1 2 3 [ + + ] [ * * 10 + ] 3bi . .
7 2 [ + ] [ - ] [ * ] 2tri . . .
1 2 3 [ + + ] [ 3drop 0 ] [ * - ] 3tri . . .
1 2 3 4 [ + ] [ * ] 2bi* . .
1 2 3 [ 1 + ] [ sq ] [ neg ] tri* . . .
9 5 3 2 [ - ] 2bi@ . .
1 2 3 [ sq ] tri@ . . .
2 4 [ even? ] both? .
2 3 [ even? ] both? .
2 3 [ even? ] either? .
1 3 [ even? ] either? .
100 5 [ + ] when* .
100 f [ + ] when* .
5 [ 7 ] unless* .
f [ 7 ] unless* .

! The words take known callables of a caller.

: sum-and-difference ( x y -- s d ) [ + ] [ - ] 2bi ;
10 3 sum-and-difference . .

! Loops

{ 1 2 3 f 4 } 0 [ 2dup swap nth ] [ . 1 + ] while* . drop
{ f 1 } 0 [ 2dup swap nth ] [ . 1 + ] while* . drop
{ f f 7 8 } 0 [ 2dup swap nth ] [ 1 + ] until* . . drop
{ 7 } 0 [ 2dup swap nth ] [ 1 + ] until* . . drop
5 [ dup 3 < ] [ 1 + ] do while .
0 [ dup 3 < ] [ 1 + ] do while .
5 [ dup 3 > ] [ 1 + ] do until .

! A loop in a word that is handed a callable.

: first-such ( ..a n quot: ( ..a n -- ..a ? ) -- ..a n )
    [ keep swap ] curry [ 1 + ] until ; inline
10 [ 7 mod zero? ] first-such .

! Several callables out of an array

5 { [ . ] [ 1 + . ] } cleave
5 6 { [ + . ] [ - . ] } 2cleave
5 { } cleave

! Values for callables

10 3 2 [ - - ] 2with call .
100 20 { 3 4 } [ - - ] 2with map .
