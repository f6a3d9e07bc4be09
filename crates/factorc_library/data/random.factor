! Random numbers, by the names and effects that Factor has for them. It needs `lib/sequences.factor` before it.
!
! A program has no source of chance but its input, so it gets the same numbers in each run, unless it calls `seed-random`. The generator is
! that of L'Ecuyer (1988): two states are multiplied modulo primes of 31 bits, and their difference is taken. Its period is 2.3 times 10^18,
! and none of its products has more than 47 bits. It isn't for secrets.

IN: random
USING: kernel math sequences ;

<PRIVATE

CONSTANT: (state) { 12345 67890 }

CONSTANT: (modulus) 2147483563

CONSTANT: (modulus2) 2147483399

! The next of 2147483562 numbers, from 0 on.
: (next) ( -- n )
    0 (state) nth 40014 * (modulus) mod dup 0 (state) set-nth
    1 (state) nth 40692 * (modulus2) mod dup 1 (state) set-nth
    - dup 0 < [ 2147483562 + ] when 2147483562 mod ;

! A random number from 0 up to `range`, with as many steps of the generator as it takes that `range` isn't less than `n`.
: (wide) ( n number range -- number range )
    pick over > [
        2147483562 * [ 2147483562 * (next) + ] dip (wide)
    ] [ [ nip ] dip ] if ;

! A number from 0 up to `n`, which is left out. Numbers behind the last multiple of `n` aren't taken.
: (random) ( n -- m )
    dup (next) 2147483562 (wide) pick /i pick *
    2dup < [ drop swap mod ] [ 2drop (random) ] if ;

PRIVATE>

! Begins with these numbers again. Two programs, or two parts of one, get the same numbers behind the same seed. In Factor it takes and leaves
! the generator too.
: seed-random ( seed -- )
    dup 2147483562 mod abs 1 + 0 (state) set-nth
    2147483398 mod abs 1 + 1 (state) set-nth
    8 [ (next) drop ] times ;

! A random integer from 0 up to `n`, which is left out. Where `n` isn't from 1 to 2^90, it is thrown.
: random-integer ( n -- m )
    dup dup 1 < swap 1237940039285380274899124224 > or [ throw ] [ (random) ] if ;

! A random integer from 0 up to an integer, which is left out, or a random element of a sequence. An integer that isn't from 1 to 2^90 is thrown;
! a sequence without an element is thrown as 0.
: random ( obj -- elt )
    dup integer? [ random-integer ] [ [ length random-integer ] keep nth ] if ;

! An array of `n` random integers from 0 up to `m`, which is left out, or of elements of a sequence.
: randoms ( n obj -- seq ) [ random ] curry replicate ;

! Puts the elements of an array in a random order, of which each is as likely, and leaves the array.
:: randomize ( array -- array )
    array length <iota> [| i | i i 1 + random-integer array exchange ] each
    array ;

! A new array of the elements in a random order.
: shuffle ( seq -- newseq ) [ ] map randomize ;
