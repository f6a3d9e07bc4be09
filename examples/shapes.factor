! Shapes: what each is called, its area and its perimeter.
!
! It shows classes of tuples with parents, a singleton, a union, generic words of which the value chooses the method, methods that go on
! with the next one by `call-next-method`, and a built-in class among the others: an integer is a square with sides of that length.

USING: kernel math sequences arrays io math.parser accessors ;
IN: shapes

TUPLE: shape ;
TUPLE: circle < shape radius ;
TUPLE: rectangle < shape width height ;
TUPLE: square < rectangle ;
TUPLE: group parts ;
SINGLETON: point
UNION: round circle point ;
UNION: figure shape group point integer ;

C: <circle> circle
C: <rectangle> rectangle
C: <group> group

: <square> ( side -- square ) dup square boa ;

! Pi times a number.
: pi* ( n -- n ) 355 * 113 /i ;

GENERIC: area ( figure -- n )
M: point area drop 0 ;
M: integer area sq ;
M: circle area radius>> sq pi* ;
M: rectangle area [ width>> ] [ height>> ] bi * ;
M: group area parts>> [ area ] map sum ;

GENERIC: perimeter ( figure -- n )
M: figure perimeter drop 0 ;
M: integer perimeter 4 * ;
M: circle perimeter radius>> 2 * pi* ;
M: rectangle perimeter [ width>> ] [ height>> ] bi + 2 * ;
M: group perimeter parts>> [ perimeter ] map sum ;

! What a figure is called. Each of the shapes puts a word before what its parent says.
GENERIC: title ( figure -- str )
M: object title drop "something" ;
M: integer title drop "square" ;
M: point title drop "point" ;
M: group title parts>> length number>string " parts" append ;
M: shape title drop "shape" ;
M: circle title "round " swap call-next-method append ;
M: rectangle title "angular " swap call-next-method append ;
M: square title "even " swap call-next-method append ;

! A figure that is so many times as large. It is a new one.
GENERIC: scale ( n figure -- figure )
M: point scale nip ;
M: integer scale * ;
M: circle scale radius>> * <circle> ;
M: rectangle scale 2dup width>> * -rot height>> * <rectangle> ;
M: square scale width>> * <square> ;
M: group scale parts>> [ scale ] with map <group> ;

: describe ( figure -- )
    [ title write ": area " write ]
    [ area number>string write ", perimeter " write ]
    [ perimeter number>string print ] tri ;

: figures ( -- figures )
    { } 10 <circle> suffix 3 4 <rectangle> suffix 5 <square> suffix point suffix 6 suffix ;

figures [ describe ] each

"Together" print
figures <group> dup describe
"Three times as large" print
3 swap scale dup describe

parts>> dup [ round? ] filter length number>string write " of them are round" print
[ rectangle? ] filter [ title ] map [ print ] each
"7" title print
