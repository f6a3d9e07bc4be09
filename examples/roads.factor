! The shortest ways through a small country.
!
! It shows words with locals: each names what it takes and what it finds on the way, quotations use the locals of the word around them,
! and `:>` keeps a value for later.

USING: kernel math sequences arrays io math.parser accessors combinators ;
IN: roads

! The country. A road has the numbers of two towns and its length, and may be taken both ways.

CONSTANT: towns { "Aldwick" "Birn" "Corve" "Dunmore" "Eskdale" "Farrow" "Gull Island" }

CONSTANT: roads {
    { 0 1 7 } { 0 2 9 } { 0 5 14 } { 1 2 10 } { 1 3 15 }
    { 2 3 11 } { 2 5 2 } { 3 4 6 } { 4 5 9 }
}

: town-name ( town -- str ) towns nth ;

! A search knows for each town how long the shortest way is that was found so far, and which town comes before it on that way. Both are
! `f` where no way was found.

TUPLE: search lengths befores ;
C: <search> search

: unknown-yet ( -- array ) towns length f <array> ;

:: search-from ( start -- search )
    unknown-yet :> lengths
    0 start lengths set-nth
    lengths unknown-yet <search> ;

:: length-to ( town search -- n/f ) town search lengths>> nth ;

:: before ( town search -- town/f ) town search befores>> nth ;

:: shorter? ( new old -- ? )
    {
        { [ new not ] [ f ] }
        { [ old not ] [ t ] }
        [ new old < ]
    } cond ;

! Looks along a road from one of its ends, and tells whether the way to the other end became shorter.
:: look ( from to miles search -- ? )
    from search length-to :> reached
    reached [ reached miles + ] [ f ] if :> new
    new to search length-to shorter? dup [
        new to search lengths>> set-nth
        from to search befores>> set-nth
    ] when ;

:: look-along ( road search -- ? )
    road first :> a
    road second :> b
    road last :> miles
    a b miles search look
    b a miles search look or ;

! Looks along all roads, until that changes nothing.
:: settle ( search -- )
    [ f roads [ search look-along or ] each ] loop ;

:: way-to ( town search -- towns )
    town search before :> last-one
    last-one [ last-one search way-to ] [ { } ] if town suffix ;

! What is told

:: joined ( texts between -- str )
    1 texts length texts subseq
    texts first [| so-far text | so-far between append text append ] reduce ;

:: tell ( town search -- )
    town town-name write ": " write
    town search length-to :> miles
    miles [
        miles number>string write " miles, " write
        town search way-to [ town-name ] map " - " joined print
    ] [ "no way" print ] if ;

:: tell-all ( start -- )
    start search-from :> search
    search settle
    "From " write start town-name print
    towns length <iota> [| town | town start = [ town search tell ] unless ] each ;

0 tell-all
nl
4 tell-all
