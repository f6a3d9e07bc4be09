! Expressions in x: their values, their derivatives, and how they are simplified and printed.
!
! It shows a tree of tuples, where numbers are leaves as they are and x is a singleton; a generic word for each thing that is done with
! an expression; methods that go on with that of the parent, and look at what comes of it; and `cond`.

USING: kernel math sequences io math.parser combinators accessors ;
IN: expressions

TUPLE: binary left right ;
TUPLE: plus < binary ;
TUPLE: minus < binary ;
TUPLE: product < binary ;
SINGLETON: x
UNION: leaf integer x ;
UNION: additive plus minus ;

C: <plus> plus
C: <minus> minus
C: <product> product

! The value of an expression, where x is this number.
GENERIC: value ( n expression -- m )

: values ( n binary -- m m ) 2dup left>> value -rot right>> value ;

M: integer value nip ;
M: x value drop ;
M: plus value values + ;
M: minus value values - ;
M: product value values * ;

! The derivative.
GENERIC: derive ( expression -- expression )
M: integer derive drop 0 ;
M: x derive drop 1 ;
M: plus derive [ left>> derive ] [ right>> derive ] bi <plus> ;
M: minus derive [ left>> derive ] [ right>> derive ] bi <minus> ;
M: product derive
    [ [ left>> derive ] [ right>> ] bi <product> ]
    [ [ left>> ] [ right>> derive ] bi <product> ] bi <plus> ;

! An expression with the same values. First the parts are simplified; two numbers make a number; and then 0 and 1 go away.
GENERIC: simplify ( expression -- expression )

: constant? ( binary -- ? ) [ left>> ] [ right>> ] bi [ integer? ] bi@ and ;

M: leaf simplify ;
M: binary simplify
    dup left>> simplify >>left
    dup right>> simplify >>right
    dup constant? [ 0 swap value ] when ;
M: plus simplify
    call-next-method {
        { [ dup integer? ] [ ] }
        { [ dup left>> 0 = ] [ right>> ] }
        { [ dup right>> 0 = ] [ left>> ] }
        [ ]
    } cond ;
M: minus simplify
    call-next-method dup minus? [ dup right>> 0 = [ left>> ] when ] when ;
M: product simplify
    call-next-method {
        { [ dup integer? ] [ ] }
        { [ dup [ left>> 0 = ] [ right>> 0 = ] bi or ] [ drop 0 ] }
        { [ dup left>> 1 = ] [ right>> ] }
        { [ dup right>> 1 = ] [ left>> ] }
        [ ]
    } cond ;

! The text of an expression. A sum in a product stands in parentheses, and so does one that is subtracted.
GENERIC: show ( expression -- str )

: part ( expression -- str )
    dup show swap additive? [ "(" swap append ")" append ] when ;

M: integer show number>string ;
M: x show drop "x" ;
M: plus show [ left>> show " + " append ] [ right>> show append ] bi ;
M: minus show [ left>> show " - " append ] [ right>> part append ] bi ;
M: product show [ left>> part " * " append ] [ right>> part append ] bi ;

: tell ( expression title -- expression ) write dup show print ;

: study ( expression -- )
    "f  = " tell
    "at 5: " write 5 over value number>string print
    derive "f' = " tell simplify "   = " tell
    "at 5: " write 5 swap value number>string print nl ;

x x <product> 3 x <product> <minus> 7 <plus> study
x 1 <plus> x 1 <minus> <product> study
x x <product> x <product> study
2 3 <plus> 4 <product> study
