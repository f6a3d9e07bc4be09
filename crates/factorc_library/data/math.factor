! More words on integers, by the names and effects that Factor has for them. It needs no other file.
!
! There are integers of 128 bits alone. So `^` takes no negative exponent, the root is that of `integer-sqrt`, and what would be outside
! ends with `overflow`; `lib/bignums.factor` has integers of any size. Ranges are arrays here.

IN: math
USING: kernel ;

! The quotient, rounded toward zero, and what it leaves: those of `/i` and `mod`.
: /mod ( x y -- z w ) 2dup /i -rot mod ;

! What a division rounded down by the absolute value of `y` leaves: never negative.
: rem ( x y -- z )
    swap over mod dup 0 < [ over 0 < [ swap - ] [ + ] if ] [ nip ] if ;

! Half of the integer, rounded down.
: 2/ ( x -- y ) -1 shift ;

! 2 to the power `n`.
: 2^ ( n -- 2^n ) 1 swap shift ;

! -1, 0 or 1, as the integer is negative, 0 or positive.
: sgn ( x -- n ) dup 0 < [ drop -1 ] [ 0 > [ 1 ] [ 0 ] if ] if ;

! Whether bit `n` of the integer is set; bit 0 is the lowest one.
: bit? ( x n -- ? ) neg shift odd? ;

! Runs `quot1` where the integer is 0, and otherwise `quot2` on it.
: if-zero ( ..a n quot1: ( ..a -- ..b ) quot2: ( ..a n -- ..b ) -- ..b )
    pick 0 = [ drop nip call ] [ nip call ] if ; inline

<PRIVATE

: (log2) ( n x -- m ) dup 1 > [ [ 1 + ] [ 2/ ] bi* (log2) ] [ drop ] if ;

PRIVATE>

! The place of the highest set bit of a positive integer. Another integer is thrown.
: log2 ( x -- n ) dup 0 > [ 0 swap (log2) ] [ throw ] if ;

! Whether the integer is a power of 2.
: power-of-2? ( n -- ? ) dup 0 > [ dup 1 - bitand 0 = ] [ drop f ] if ;

! The least power of 2 that isn't less than the integer and isn't less than 1.
: next-power-of-2 ( m -- n ) dup 1 > [ 1 - log2 1 + 2^ ] [ drop 1 ] if ;

IN: math.order
USING: kernel math ;

! Whether `x` isn't less than `min` and isn't greater than `max`.
: between? ( x min max -- ? ) pick >= [ >= ] dip and ;

! `x` where it is from `min` to `max`, and otherwise the nearer of the two.
: clamp ( x min max -- y ) [ max ] dip min ;

IN: math.functions
USING: kernel math ;

<PRIVATE

! `z` times `x` to the power `y`. The square of `x` is made only where it is needed.
: (^) ( z x y -- w )
    dup 0 = [ 2drop ] [
        dup odd? [ [ [ * ] keep ] dip ] when
        2/ dup 0 = [ 2drop ] [ [ sq ] dip (^) ] if
    ] if ;

! `z` times `x` to the power `y`, modulo `n`.
:: (^mod) ( z x y n -- w )
    y 0 = [ z n mod ] [
        y odd? [ z x * n mod ] [ z ] if
        x y 2/ dup 0 = [ [ sq n mod ] dip ] unless n (^mod)
    ] if ;

! As Euclid does it, with the factors `a` and `b` of one input.
: (gcd) ( b a x y -- a d )
    swap dup 0 = [ drop nip ] [
        [ /mod [ over * swapd - ] dip ] keep (gcd)
    ] if ;

! The root, from above.
: (sqrt) ( x n -- m )
    2dup [ /i ] keep + 2/ 2dup > [ nip (sqrt) ] [ drop nip ] if ;

PRIVATE>

! `x` to the power `y`. A negative `y` is thrown, since there are no fractions.
: ^ ( x y -- z ) dup 0 < [ throw ] [ 1 -rot (^) ] if ;

! The greatest common divisor `d`, which isn't negative, and an `a` for which `a x *` leaves `d` modulo `y`.
: gcd ( x y -- a d ) [ 0 1 ] 2dip (gcd) dup 0 < [ [ neg ] bi@ ] when ;

! The least common multiple, with the sign of the product. Of two zeros it is `zero-divisor`.
: lcm ( a b -- c ) 2dup gcd nip [ swap ] dip /i * ;

! Whether `n` divides `m`.
: divisor? ( m n -- ? ) mod 0 = ;

! The `y` from 0 up to `n` for which `x y *` is 1 modulo `n`. Where there is none, the common divisor is thrown.
: mod-inv ( x n -- y )
    [ gcd ] keep swap dup 1 = [ drop rem ] [ throw ] if ;

! `x` to the power `y`, modulo `n`. A negative `y` is thrown. Where `n` has more than 63 bits, it may be `overflow`.
: ^mod ( x y n -- z )
    over 0 < [ drop throw ] [ swapd [ rem ] keep [ 1 swap rot ] dip (^mod) ] if ;

! The greatest integer whose square isn't greater than `x`. A negative `x` is thrown. The `sqrt` of Factor leaves a float.
: integer-sqrt ( x -- n )
    dup 0 < [ throw ] [
        dup 2 < [ dup log2 2/ 1 + 2^ (sqrt) ] unless
    ] if ;

IN: math.parser
USING: combinators kernel math sequences ;

<PRIVATE

CONSTANT: (digits) "0123456789abcdefghijklmnopqrstuvwxyz"

! Fails where there is no such base.
: (check-base) ( radix -- radix ) dup dup 2 < swap 36 > or [ throw ] when ;

! The text of a digit, whatever its sign.
: (digit) ( n -- str ) abs dup 1 + (digits) subseq ;

! The digits of the integer before the text.
: (>base) ( str n radix -- newstr )
    [ /mod (digit) swap [ swap append ] dip ] keep
    over 0 = [ 2drop ] [ (>base) ] if ;

! The value of a character as a digit, which is 36 for a character that is none.
: (digit>) ( ch -- n )
    {
        { [ dup 48 < ] [ drop 36 ] }
        { [ dup 58 < ] [ 48 - ] }
        { [ dup 65 < ] [ drop 36 ] }
        { [ dup 91 < ] [ 55 - ] }
        { [ dup 97 < ] [ drop 36 ] }
        { [ dup 123 < ] [ 87 - ] }
        [ drop 36 ]
    } cond ;

! The integer with one more digit; `f` stays, and so it is where the digit is none of the base.
:: (add-digit) ( n/f digit radix -- m/f )
    n/f digit radix < and [ n/f radix * digit - ] [ f ] if ;

! The negative of the integer that the digits write, or `f`.
: (digits>) ( str radix -- n/f )
    over empty? [ 2drop f ] [
        0 -rot [ [ (digit>) ] dip (add-digit) ] curry each
    ] if ;

PRIVATE>

! The integer in this base, which is from 2 to 36, with small letters. Another base is thrown.
: >base ( n radix -- str )
    (check-base) over 0 < [ "-" ] [ "" ] if -rot "" -rot (>base) append ;

! The same as `>base`.
: number>base ( n radix -- str ) >base ;

! The integer that the text writes in this base, with a `-` before it or none; or `f`. Capital letters are digits too. An integer of more
! than 128 bits is `overflow`.
: base> ( str radix -- n/f )
    (check-base) over empty? [ 2drop f ] [
        over first 45 = [ [ 1 over length rot subseq ] dip (digits>) ]
        [ (digits>) dup [ neg ] when ] if
    ] if ;

! The integer in base 2.
: >bin ( n -- str ) 2 >base ;

! The integer in base 8.
: >oct ( n -- str ) 8 >base ;

! The integer in base 16.
: >hex ( n -- str ) 16 >base ;

! The integer that the text writes in base 2, or `f`.
: bin> ( str -- n/f ) 2 base> ;

! The integer that the text writes in base 8, or `f`.
: oct> ( str -- n/f ) 8 base> ;

! The integer that the text writes in base 16, or `f`.
: hex> ( str -- n/f ) 16 base> ;

IN: ranges
USING: arrays kernel math sequences ;

! The integers from `a` up or down to `b`, both of them among these.
: [a..b] ( a b -- range )
    2dup > [ over swap - 1 + <iota> [ - ] with map ]
    [ over - 1 + <iota> [ + ] with map ] if ;

! The integers from `a` up or down to `b`, which is left out.
: [a..b) ( a b -- range ) 2dup = [ 2drop { } >array ] [ 2dup > [ 1 + ] [ 1 - ] if [a..b] ] if ;

! The integers from `a`, which is left out, up or down to `b`.
: (a..b] ( a b -- range ) 2dup = [ 2drop { } >array ] [ 2dup > [ [ 1 - ] dip ] [ [ 1 + ] dip ] if [a..b] ] if ;

! The integers from 0 up or down to `b`.
: [0..b] ( b -- range ) 0 swap [a..b] ;

! The integers from 0 up or down to `b`, which is left out.
: [0..b) ( b -- range ) 0 swap [a..b) ;

! The integers from 1 up or down to `b`.
: [1..b] ( b -- range ) 1 swap [a..b] ;

! The integers from 1 up or down to `b`, which is left out.
: [1..b) ( b -- range ) 1 swap [a..b) ;
