! Products and powers of matrices. A matrix is an array of its rows, which are arrays of integers.
!
! It shows `map` in `map`, and how `with`, `curry` and `2curry` hand a value to a quotation that runs over and over.

USING: kernel math sequences arrays io prettyprint math.parser ;
IN: matrix

! The product of the numbers in place `n`.
: product-at ( n u v -- x ) [ dupd nth ] dip swapd nth * ;

: dot ( u v -- n ) over length <iota> -rot [ product-at ] 2curry map sum ;

: column ( n matrix -- column ) [ nth ] with map ;

: columns ( matrix -- columns )
    dup first length <iota> [ over column ] map nip ;

! The row of the product that this row makes.
: row-product ( row columns -- row ) [ dot ] with map ;

: product ( a b -- c ) columns [ row-product ] curry map ;

! The matrix that changes nothing

: unit-row ( n i -- row ) swap <iota> [ = 1 0 ? ] with map ;

: unit ( n -- matrix ) dup <iota> [ dupd unit-row ] map nip ;

! Powers, by squaring

: power ( matrix n -- matrix )
    dup zero?
    [ drop length unit ]
    [
        2dup 2 /i power dup product
        swap odd? [ product ] [ nip ] if
    ] if ;

! Printing

: right ( str -- str ) [ dup length 6 < ] [ " " swap append ] while ;

: show-row ( row -- ) [ number>string right write ] each nl ;

: show ( matrix -- ) [ show-row ] each nl ;

CONSTANT: a { { 1 2 3 } { 4 5 6 } }
CONSTANT: b { { 7 8 } { 9 10 } { 11 12 } }

a b product show
b a product show
b columns show
3 unit show
{ { 1 1 } { 1 0 } } 10 power show

! The powers of this matrix have the Fibonacci numbers.
: fibonacci ( n -- m ) { { 1 1 } { 1 0 } } swap power first second ;

"fibonacci of 150: " write 150 fibonacci .
{ { 2 0 } { 0 3 } } dup 4 power swap product { { 32 0 } { 0 243 } } = .
