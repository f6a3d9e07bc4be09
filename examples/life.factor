! The game of life on a small torus: a glider goes its way.
!
! It shows places in arrays of arrays, a table of neighbours as an array literal, and sums over quotations that take several values.

USING: kernel math sequences arrays io math.parser ;
IN: life

CONSTANT: size 8

! The glider
CONSTANT: start
{
    { 0 1 0 0 0 0 0 0 }
    { 0 0 1 0 0 0 0 0 }
    { 1 1 1 0 0 0 0 0 }
    { 0 0 0 0 0 0 0 0 }
    { 0 0 0 0 0 0 0 0 }
    { 0 0 0 0 0 0 0 0 }
    { 0 0 0 0 0 0 0 0 }
    { 0 0 0 0 0 0 0 0 }
}

! How far the neighbours of a cell are from it, by rows and by columns.
CONSTANT: neighbours { { -1 -1 } { -1 0 } { -1 1 } { 0 -1 } { 0 1 } { 1 -1 } { 1 0 } { 1 1 } }

! Places beyond an edge are those of the other side.
: around ( n -- n ) size + size mod ;

: cell ( row column board -- n ) [ around ] 2dip [ around ] dip swapd nth nth ;

: moved ( row column by -- row column ) [ second + ] [ first swap [ + ] dip ] bi ;

: neighbour ( by row column board -- n ) [ rot moved ] dip cell ;

! How many neighbours live.
: living ( row column board -- n )
    [ neighbour ] curry 2curry neighbours swap map sum ;

: lives? ( row column board -- ? )
    3dup living [ cell ] dip
    swap 1 = [ dup 2 = swap 3 = or ] [ 3 = ] if ;

: next-row ( row board -- row )
    [ lives? 1 0 ? ] curry curry size <iota> swap map ;

: next-board ( board -- board )
    [ next-row ] curry size <iota> swap map ;

! Printing

: show-row ( row -- ) [ 1 = "#" "." ? write ] each nl ;

: show ( board n -- )
    "generation " write number>string print [ show-row ] each nl ;

start
4 <iota> [ 4 * [ dup ] dip show 4 [ next-board ] times ] each
"cells at the end: " write [ sum ] map sum number>string print
