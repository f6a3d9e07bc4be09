! The marks of a class, from lines of text to a table.
!
! It shows fries: quotations that are made when they are needed, with values or other quotations put into their holes. `places`, `then`
! and the words of columns are inline, so that the quotations that they are handed are known where they are called.

USING: kernel math sequences arrays io math.parser accessors ;
IN: marks

CONSTANT: lines {
    "anna 12 15 9 18"
    "bela 7 11 10 8"
    "clara 19 17 20 16"
    "dov 5 14 6 11"
}

! Quotations of quotations

! What two quotations do, one after the other.
: then ( first second -- quot ) '[ @ @ ] ; inline

: at-least ( low -- quot ) '[ _ >= ] ; inline

: between ( low high -- quot ) '[ dup _ >= swap _ <= and ] ; inline

! Text

! The places of a sequence at which a test holds.
: places ( seq test -- places )
    [ dup length <iota> swap ] dip '[ _ nth @ ] filter ; inline

! The parts of a text between these places.
: parts ( str places -- parts )
    over length suffix dup length <iota> -rot
    { -1 } over append swap rot
    '[ [ _ nth 1 + ] [ _ nth ] bi _ subseq ] map ;

: words ( str -- words ) dup [ 32 = ] places parts ;

: spaces ( n -- str ) "" swap [ " " append ] times ;

: gap ( str width -- spaces ) swap length - 0 max spaces ;

: to-left ( str width -- str ) dupd gap append ;

: to-right ( str width -- str ) dupd gap swap append ;

! Pupils

TUPLE: pupil name marks ;
C: <pupil> pupil

: read-pupil ( str -- pupil )
    words [ first ] [ 1 over length rot subseq [ string>number ] map ] bi <pupil> ;

: mean ( marks -- n ) [ sum ] [ length ] bi /i ;

: best ( marks -- n ) 0 [ max ] reduce ;

! How many marks pass a test.
: count ( marks test -- n ) filter length ; inline

! All marks of a pupil in hundredths of the best one of the class.
: scaled ( pupils -- arrays )
    dup [ marks>> best ] map best
    '[ marks>> [ 100 * _ /i ] map ] map ;

! The table

! What writes a column of this width, of what a quotation gets from a pupil.
: text-column ( get width -- quot ) '[ @ _ to-left write ] ; inline

: number-column ( get width -- quot )
    [ [ number>string ] then ] dip '[ @ _ to-right write ] ; inline

: show ( pupil -- )
    [ name>> ] 8 text-column
    [ marks>> mean ] 6 number-column
    [ marks>> best ] 6 number-column tri nl ;

: show-grades ( pupil -- )
    [ name>> ] 8 text-column
    [ marks>> 15 at-least count ] 6 number-column
    [ marks>> 10 14 between count ] 6 number-column tri nl ;

: show-all ( pupils -- )
    "name      mean  best" print
    dup [ show ] each nl
    "name      good  fair" print
    [ show-grades ] each nl ;

: show-scaled ( pupils -- )
    scaled [ [ number>string 5 to-right write ] each nl ] each nl ;

: above-mean ( pupils -- pupils )
    dup [ marks>> mean ] map mean '[ marks>> mean _ > ] filter ;

lines [ read-pupil ] map
dup show-all
dup show-scaled
above-mean [ name>> print ] each
