! Integers of any size. It needs `lib/sequences.factor` and `lib/sorting.factor` before it.
!
! The words of `math` take integers of 128 bits, and Factor's take those of any size; so the words here have names of their own. A value of
! `bignum` has a sign and an array of parts of nine decimal digits, the lowest first, and is never changed. Two of one value are equal by `=`.
! No step of a word is an `overflow`, since a product of two parts has 60 bits. A number has at most 1,000,000 parts. A sum and a text take a
! time in proportion to the digits, a product and a quotient one in proportion to the product of both lengths.

IN: bignums
USING: accessors arrays kernel math math.order math.parser sequences ;

! The class of integers of any size. Its slots are whether it is negative, and its parts, of which the last one isn't 0.
TUPLE: bignum negative? parts ;

<PRIVATE

CONSTANT: (base) 1000000000

! The number of parts without those zeros that stand last.
: (significant) ( parts -- n )
    dup length [ dup 0 > [ 2dup 1 - swap nth 0 = ] [ f ] if ] [ 1 - ] while nip ;

! A number of these parts, perhaps with zeros behind them.
: <bignum> ( negative? parts -- bignum )
    dup (significant) head dup empty? [ nip f swap ] when bignum boa ;

! The part in this place, or 0 where there is none.
: (part) ( n parts -- m ) 2dup length < [ nth ] [ 2drop 0 ] if ;

! Puts a part into its place, and leaves what is over or under for the next one: `n` is from -(base) up to twice (base).
:: (carry) ( n i parts -- carry )
    n 0 < [ n (base) + i parts set-nth -1 ] [
        n (base) < [ n i parts set-nth 0 ] [ n (base) - i parts set-nth 1 ] if
    ] if ;

! The sum of the parts.
:: (plus) ( parts1 parts2 -- parts )
    parts1 length parts2 length max 1 + 0 <array> :> sum
    0 sum length <iota> [| i | i parts1 (part) + i parts2 (part) + i sum (carry) ] each
    drop sum ;

! The parts of the difference, of which the first number isn't less than the second one.
:: (minus) ( parts1 parts2 -- parts )
    parts1 length 0 <array> :> difference
    0 parts1 length <iota> [| i | i parts1 nth + i parts2 (part) - i difference (carry) ] each
    drop difference ;

! Adds so many times the parts to those of `sum` from place `at` on.
:: (add-times) ( parts n at sum -- )
    0 parts length <iota> [| i |
        i parts nth n * + at i + sum nth +
        dup (base) mod at i + sum set-nth (base) /i
    ] each at parts length + sum set-nth ;

! The product of the parts.
:: (product) ( parts1 parts2 -- parts )
    parts1 length parts2 length + 0 <array> :> product
    parts1 length <iota> [| i | parts2 i parts1 nth i product (add-times) ] each
    product ;

! Compares two numbers that aren't negative.
:: (compare-parts) ( parts1 parts2 -- <=> )
    parts1 length parts2 length <=> dup +eq+ eq? [
        drop parts1 length 1 -
        [ dup 0 < [ f ] [ dup parts1 nth over parts2 nth = ] if ] [ 1 - ] while
        dup 0 < [ drop +eq+ ] [ [ parts1 nth ] [ parts2 nth ] bi <=> ] if
    ] when ;

! The quotient of the parts and a part that isn't 0, and what it leaves.
:: (divide-by-part) ( parts n -- parts m )
    parts length 0 <array> :> quotient
    0 parts length <iota> [| k |
        parts length 1 - k - :> i
        (base) * i parts nth + dup n /i i quotient set-nth n mod
    ] each quotient swap ;

! Takes so many times the parts from those of `rest`, from place `at` on, and leaves what is under 0 in the place behind them.
:: (take-times) ( parts n at rest -- under )
    0 parts length <iota> [| i |
        at i + rest nth + i parts nth n * - :> m
        m (base) mod dup 0 < [ (base) + ] when dup at i + rest set-nth
        m swap - (base) /i
    ] each at parts length + rest nth + dup at parts length + rest set-nth ;

! Puts the parts back that were taken once too often.
:: (put-back) ( parts at rest -- )
    0 parts length <iota> [| i | at i + rest nth + i parts nth + at i + rest (carry) ] each
    at parts length + rest nth + at parts length + rest set-nth ;

! The first two parts of `rest` in front of place `at`, divided by the first part of the divisor: at most 2 more than the part of the quotient.
:: (guess) ( parts at rest -- n )
    at parts length + rest nth (base) * at parts length + 1 - rest nth +
    parts last /i (base) 1 - min ;

! The part of the quotient in place `at`, which is taken from `rest` so many times.
:: (quotient-part) ( parts at rest -- n )
    parts at rest (guess)
    parts over at rest (take-times)
    [ dup 0 < ] [ drop 1 - parts at rest (put-back) at parts length + rest nth ] while drop ;

! The quotient of the parts, and what it leaves, where the divisor has two parts at least and its last one is at least half of (base).
:: (divide) ( parts1 parts2 -- quotient rest )
    parts1 1 0 <array> append :> rest
    parts1 length parts2 length - 1 + 0 max :> n
    n 0 <array> :> quotient
    n <iota> [| k |
        n 1 - k - :> at
        parts2 at rest (quotient-part) at quotient set-nth
    ] each quotient rest ;

! So many times the parts.
: (times) ( parts n -- parts ) 1array (product) dup (significant) head ;

! The quotient of the parts, and what it leaves, where the divisor isn't 0.
:: (divide-parts) ( parts1 parts2 -- quotient rest )
    parts2 length 1 = [ parts1 parts2 first (divide-by-part) 1array ] [
        (base) parts2 last 1 + /i :> scale
        parts1 scale (times) parts2 scale (times) (divide) scale (divide-by-part) drop
    ] if ;

PRIVATE>

! The integer as a number of any size.
: >bignum ( n -- bignum )
    dup 0 < swap { } swap
    [ dup 0 = ] [ [ (base) mod abs suffix ] keep (base) /i ] until drop <bignum> ;

<PRIVATE

! The number itself; an integer as a number of any size.
: (big) ( n -- bignum ) dup integer? [ >bignum ] when ;

: (both) ( x y -- x y ) [ (big) ] bi@ ;

PRIVATE>

! Whether the number, which may be an integer, is 0.
: big-zero? ( x -- ? ) (big) parts>> empty? ;

! 0 less the number.
: big-neg ( x -- y ) (big) [ negative?>> not ] [ parts>> ] bi <bignum> ;

! The number without its sign.
: big-abs ( x -- y ) (big) parts>> f swap <bignum> ;

! The sum. Here and at the other words each input may be an integer too.
:: big+ ( x y -- z )
    x y (both) :> b :> a
    a negative?>> b negative?>> eq?
    [ a negative?>> a parts>> b parts>> (plus) <bignum> ] [
        a parts>> b parts>> (compare-parts) +lt+ eq?
        [ b negative?>> b parts>> a parts>> (minus) <bignum> ]
        [ a negative?>> a parts>> b parts>> (minus) <bignum> ] if
    ] if ;

! The difference.
: big- ( x y -- z ) big-neg big+ ;

! The product.
: big* ( x y -- z )
    (both) [ [ negative?>> ] bi@ eq? not ] [ [ parts>> ] bi@ (product) ] [ 2keep ] dip call <bignum> ;

! The quotient, rounded toward zero, and what it leaves, with the sign of `x`. Where `y` is 0, it is `zero-divisor`.
:: big/mod ( x y -- z w )
    x y (both) :> b :> a
    b big-zero? [ 1 0 /i drop ] when
    a parts>> b parts>> (compare-parts) +lt+ eq? [ 0 >bignum a ] [
        a parts>> b parts>> (divide-parts) :> left
        a negative?>> b negative?>> eq? not swap <bignum>
        a negative?>> left <bignum>
    ] if ;

! The quotient, rounded toward zero.
: big/i ( x y -- z ) big/mod drop ;

! What the quotient leaves, with the sign of `x`.
: big-mod ( x y -- z ) big/mod nip ;

<PRIVATE

! `z` times `x` to the power `n`.
: (big^) ( z x n -- w )
    dup 0 = [ 2drop ] [
        dup odd? [ [ [ big* ] keep ] dip ] when
        2 /i dup 0 = [ 2drop ] [ [ dup big* ] dip (big^) ] if
    ] if ;

PRIVATE>

! The number to the power `n`, an integer. A negative one is thrown.
: big^ ( x n -- y ) dup 0 < [ throw ] [ [ 1 >bignum swap (big) ] dip (big^) ] if ;

! Compares two numbers.
:: big<=> ( x y -- <=> )
    x y (both) :> b :> a
    a negative?>> [
        b negative?>> [ b parts>> a parts>> (compare-parts) ] [ +lt+ ] if
    ] [
        b negative?>> [ +gt+ ] [ a parts>> b parts>> (compare-parts) ] if
    ] if ;

M: bignum <=> big<=> ;

! The number in decimal.
: bignum>string ( x -- str )
    (big) dup big-zero? [ drop "0" ] [
        [ negative?>> "-" "" ? ] [
            parts>> reverse
            [ first number>string ] [ rest [ (base) + number>string rest ] map "" join ] bi
        ] bi append append
    ] if ;

<PRIVATE

: (digits?) ( str -- ? )
    [ empty? not ] [ [ dup 48 < swap 57 > or ] none? ] bi and ;

! The part in place `i` of a text of digits.
:: (text-part) ( i str -- n )
    str length i 9 * - dup 9 - 0 max swap str subseq string>number ;

! The number of a text of digits.
:: (text>bignum) ( negative? str -- bignum/f )
    str (digits?) [
        negative? str length 8 + 9 /i <iota> [ str (text-part) ] map <bignum>
    ] [ f ] if ;

PRIVATE>

! The number that the text writes in decimal digits, with a `-` before them or none; or `f`.
: string>bignum ( str -- bignum/f )
    dup "-" head? [ t swap rest ] [ f swap ] if (text>bignum) ;

! The number as an integer, or `f` where it hasn't room in 128 bits.
: bignum>integer ( x -- n/f ) bignum>string string>number ;
