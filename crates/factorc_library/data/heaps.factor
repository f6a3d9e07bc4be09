! Heaps, which give the least or the greatest of their keys first, by the names and effects that Factor has for them. It needs
! `lib/sequences.factor`, `lib/sorting.factor` and `lib/vectors.factor` before it.
!
! A heap holds values with keys, which are compared as `<=>` does it. To put a value in or to take one out takes steps in proportion to the
! number of doublings from 1 up to the size. Of equal keys any may come first. To look at an empty heap or to take from it is `bounds`.

IN: heaps
USING: accessors kernel math math.order sequences vectors ;

! The class of heaps that give the least key first.
TUPLE: min-heap data ;

! The class of heaps that give the greatest key first.
TUPLE: max-heap data ;

<PRIVATE

! A value with its key.
TUPLE: entry key value ;

! Whether the first key belongs before the second one.
GENERIC: (precedes?) ( key1 key2 heap -- ? )

M: min-heap (precedes?) drop before? ;

M: max-heap (precedes?) drop after? ;

! The array of the heap.
: (array) ( heap -- array ) data>> underlying>> ;

! Puts the entry into a place from `n` upwards: the ones above it that belong behind it go down.
:: (up) ( entry n heap -- )
    n 0 > [ entry key>> n 1 - 2 /i heap (array) nth key>> heap (precedes?) ] [ f ] if
    [
        n 1 - 2 /i :> above
        above heap (array) nth n heap (array) set-nth
        entry above heap (up)
    ] [ entry n heap (array) set-nth ] if ;

! The place below `n` whose key belongs before the other one's, where there are `size` entries; or `size` and more.
:: (below) ( n size heap -- m )
    n 2 * 1 + :> left
    left 1 + size < [
        left 1 + heap (array) nth key>> left heap (array) nth key>> heap (precedes?)
        [ left 1 + ] [ left ] if
    ] [ left ] if ;

! Puts the entry into a place from `n` downwards: the ones below it that belong before it go up.
:: (down) ( entry n size heap -- )
    n size heap (below) :> below
    below size < [ below heap (array) nth key>> entry key>> heap (precedes?) ] [ f ] if
    [
        below heap (array) nth n heap (array) set-nth
        entry below size heap (down)
    ] [ entry n heap (array) set-nth ] if ;

PRIVATE>

! An empty heap that gives the least key first.
: <min-heap> ( -- min-heap ) 8 <vector> min-heap boa ;

! An empty heap that gives the greatest key first.
: <max-heap> ( -- max-heap ) 8 <vector> max-heap boa ;

! The number of values.
: heap-size ( heap -- n ) data>> length>> ;

! Whether there is no value.
: heap-empty? ( heap -- ? ) heap-size 0 = ;

! Puts the value in, with its key.
: heap-push ( value key heap -- )
    [ swap entry boa ] dip
    2dup data>> push dup heap-size 1 - swap (up) ;

! The value that comes first, and its key.
: heap-peek ( heap -- value key )
    dup heap-empty? [ { } first drop ] when
    (array) first [ value>> ] [ key>> ] bi ;

<PRIVATE

! Puts the entry into the first place, which is free, and brings the heap in order.
:: (refill) ( heap entry -- )
    heap heap-empty? [ entry 0 heap heap-size heap (down) ] unless ;

PRIVATE>

! Takes out the value that comes first, and leaves it and its key.
: heap-pop ( heap -- value key )
    [ heap-peek ] keep dup data>> pop (refill) ;

! Takes out the value that comes first.
: heap-pop* ( heap -- ) heap-pop 2drop ;

! Puts in the values of the pairs of an array, which are second, with their keys, which are first.
: heap-push-all ( alist heap -- )
    [ [ [ second ] [ first ] bi ] dip heap-push ] curry each ;

! Takes out all values in turn, and runs the callable on each and its key.
:: slurp-heap ( ..a heap quot: ( ..a value key -- ..a ) -- ..a )
    [ heap heap-empty? not ] [ heap heap-pop quot call ] while ; inline
