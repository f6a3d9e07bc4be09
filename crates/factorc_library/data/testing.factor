! Tests of a program's words, by the names and effects that Factor has for them. It needs no other file.
!
! A test that fails is told in three lines, and the next one runs. Behind the last one stands `report-tests`, which Factor doesn't have: it tells
! how many there were, and ends the program with an error where some failed, so with status 1. The quotation of a test takes nothing and leaves
! as many values as the array of wanted ones has, at most 8: otherwise `call(` ends the program. An error in it ends the program too, since no
! word catches one.

IN: tools.test
USING: arrays combinators io kernel math math.parser prettyprint sequences ;

<PRIVATE

! How many tests there were, and how many of them failed.
CONSTANT: (tests) { 0 0 }

: (add) ( n -- ) dup (tests) nth 1 + swap (tests) set-nth ;

: (array4) ( a b c d -- array ) [ 2array ] 2dip 2array append ;

! What the callable leaves, in an array of `n` elements.
: (left) ( n quot -- array )
    swap {
        { [ dup 0 = ] [ drop call( -- ) { } ] }
        { [ dup 1 = ] [ drop call( -- a ) 1array ] }
        { [ dup 2 = ] [ drop call( -- a b ) 2array ] }
        { [ dup 3 = ] [ drop call( -- a b c ) 1array [ 2array ] dip append ] }
        { [ dup 4 = ] [ drop call( -- a b c d ) (array4) ] }
        { [ dup 5 = ] [ drop call( -- a b c d e ) [ (array4) ] dip suffix ] }
        { [ dup 6 = ] [ drop call( -- a b c d e g ) [ [ (array4) ] dip suffix ] dip suffix ] }
        { [ dup 7 = ] [ drop call( -- a b c d e g h ) [ [ [ (array4) ] dip suffix ] dip suffix ] dip suffix ] }
        [ drop call( -- a b c d e g h i ) (array4) [ (array4) ] dip append ]
    } cond ;

PRIVATE>

! Runs the quotation, which has to leave the elements of the array.
: unit-test ( output input -- )
    0 (add) over length swap (left) 2dup =
    [ 2drop ] [ 1 (add) "A test failed, which wanted and got:" print swap . . ] if ;

! Tells how many tests there were. Where some failed, it throws their number.
: report-tests ( -- )
    0 (tests) nth number>string write " tests, " write
    1 (tests) nth dup number>string write " failed" print
    dup 0 > [ throw ] [ drop ] if ;
