! Reports of a store, whose columns, tests and prices are callables in data.
!
! It shows `call( )`: a column has a callable in a slot, which `call( item -- str )` runs. Columns are made of others by `compose` and by
! quotations that keep locals, in words that aren't inline. Each callable is tested for its effect before it runs, however it was made.

USING: accessors arrays io kernel math math.parser sequences ;
IN: reports

TUPLE: item name price count ;
C: <item> item

! What a column is called, how wide it is, and what gets its text from an item.
TUPLE: column title width get ;
C: <column> column

: value ( item -- n ) [ price>> ] [ count>> ] bi * ;

! Text

: spaces ( n -- str ) "" swap [ " " append ] times ;

: padded ( str width -- str ) over length - 0 max spaces swap append ;

! An amount in hundredths, with a point.
: money ( n -- str )
    [ 100 /i number>string "." append ]
    [ 100 mod dup 10 < "0" "" ? swap number>string append ] bi append ;

! Callables of callables

: as-number ( get -- get ) [ number>string ] compose ;

: as-money ( get -- get ) [ money ] compose ;

:: as-share ( get total -- get )
    [ get call( item -- n ) 100 * total /i number>string "%" append ] ;

:: at-least ( get low -- test ) [ get call( item -- n ) low >= ] ;

:: both ( p q -- test ) [ dup p call( item -- ? ) swap q call( item -- ? ) and ] ;

! What all callables of a list make of a value, one after the other.
: through ( x quots -- y ) [ call( x -- y ) ] each ;

! Reports

: total ( items get -- n ) '[ _ call( item -- n ) ] map sum ;

:: columns ( items -- columns )
    "name" 8 [ name>> ] <column>
    "count" 7 [ count>> ] as-number <column> 2array
    "price" 9 [ price>> ] as-money <column> suffix
    "value" 9 [ value ] as-money <column> suffix
    "share" 7 [ value ] items [ value ] total as-share <column> suffix ;

: column-of ( title columns -- column ) swap '[ title>> _ = ] filter first ;

: chosen ( titles columns -- columns ) '[ _ column-of ] map ;

: show-cell ( item column -- )
    [ get>> call( item -- str ) ] [ width>> ] bi padded write ;

: show-row ( item columns -- ) [ dupd show-cell ] each drop nl ;

: show-titles ( columns -- ) [ [ title>> ] [ width>> ] bi padded write ] each nl ;

:: show-report ( items titles test -- )
    titles items columns chosen :> shown
    shown show-titles
    items [ test call( item -- ? ) ] filter [ shown show-row ] each nl ;

! The store

: items ( -- items )
    "lamp" 2490 12 <item> "chair" 8900 4 <item> 2array
    "pen" 120 300 <item> suffix
    "desk" 24900 2 <item> suffix
    "mug" 650 40 <item> suffix ;

! What lowers a price: a tenth off, then the last figure becomes a nine.
CONSTANT: sale { [ dup 10 /i - ] [ 10 /i 10 * 9 + ] }

: on-sale ( item -- item )
    [ name>> ] [ price>> sale through ] [ count>> ] tri <item> ;

items { "name" "count" "price" "value" "share" } [ drop t ] show-report
items { "name" "price" } [ price>> ] 2000 at-least show-report
items { "value" "name" }
[ value ] 30000 at-least [ count>> ] 10 at-least both show-report
items [ on-sale ] map { "name" "price" "share" } [ drop t ] show-report
