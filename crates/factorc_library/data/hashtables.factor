! Hash tables, by the names and effects that Factor has for them. It needs `lib/sequences.factor` and `lib/assocs.factor` before it.
!
! The words of `lib/assocs.factor` take hash tables. To find a key, to add one and to take one away takes the same time in a table of any
! size, beside that of `hashcode` and `=`. A table has as many lists of keys as it has keys, or twice as many: where it has more keys than
! lists, their number is doubled, so n keys are moved less than 2 n times altogether. From 524,288 lists on it isn't, and the lists
! become longer. The keys stand in no order.
!
! Keys are compared by `=`, and equal keys have equal hash codes. Integers, strings, iotas, `t` and `f` have codes of their own, and an
! array has one of its elements. An array that is a key isn't to be changed. No word tells two symbols or other words apart but `=`, so
! all of them have one code, and are looked for one after another; and so are tuples. A class of tuples or a singleton may have a method
! of `hashcode*`, as `M: point hashcode* nip [ x>> ] [ y>> ] bi 31 * + ;`. To look for a callable is `no-compare`, as by `=`.

IN: kernel
USING: arrays math sequences strings ;

! The hash code of a value: a nonnegative integer of at most 31 bits. `depth` is how many levels of arrays are looked at.
GENERIC: hashcode* ( depth obj -- code )

<PRIVATE

! The greatest prime of 30 bits.
CONSTANT: (prime) 1073741789

! A code of 30 bits in which each bit depends on the whole integer: what a division by the prime leaves, with the quotient, is multiplied
! modulo the prime. The product has 59 bits. A program can make integers of one code, and finds them one after another then.
: (mixed) ( n -- code )
    dup (prime) mod swap (prime) /i 31 * + (prime) mod
    387420489 * (prime) mod 1073741823 bitand ;

! The code of what has this code and of one more behind it.
: (next-code) ( code n -- newcode ) swap 31 * + 2147483647 bitand ;

PRIVATE>

M: object hashcode* 2drop 0 ;

M: t hashcode* 2drop 1 ;

M: f hashcode* 2drop 2 ;

M: integer hashcode* nip (mixed) ;

M: iota hashcode* nip length (mixed) ;

M: string hashcode* nip 5 swap [ (next-code) ] each (mixed) ;

M: array hashcode*
    over 0 > [
        [ 1 - ] dip [ length ] keep
        [ pick swap hashcode* (next-code) ] each nip (mixed)
    ] [ 2drop 3 ] if ;

! The hash code of a value, for which four levels of arrays are looked at.
: hashcode ( obj -- code ) 4 swap hashcode* ;

IN: hashtables
USING: accessors arrays assocs kernel math sequences ;

! The class of hash tables. Its slots are the number of keys, and an array of lists.
TUPLE: hashtable count buckets ;

<PRIVATE

! A key with its code and value, and the one behind it in its list, or `f`.
TUPLE: entry code key value next ;

CONSTANT: most-buckets 524288

! The number of lists for so many keys: a power of 2, at least 8.
: (bucket-count) ( n -- m )
    most-buckets min 8 [ 2dup > ] [ 2 * ] while nip ;

! The place of the list for this code.
: (place) ( code buckets -- n buckets ) [ length 1 - bitand ] keep ;

! The first entry with this key and code from this one on, or `f`.
: (search) ( key code entry/f -- entry/f )
    dup [
        2dup code>> = [ pick over key>> = ] [ f ] if
        [ 2nip ] [ next>> (search) ] if
    ] [ 2nip ] if ;

! The entry with this key and code, or `f`.
: (entry-with) ( key code hash -- entry/f ) over swap buckets>> (place) nth (search) ;

! The entry with this key, or `f`.
: (entry-at) ( key hash -- entry/f ) over hashcode swap (entry-with) ;

! Puts the entry before all others of its list.
:: (link) ( entry buckets -- )
    entry code>> buckets (place) drop :> n
    n buckets nth entry next<<
    entry n buckets set-nth ;

! Runs the callable on each entry from this one on. It may change what is behind the entry.
: (each-in-list) ( ..a entry/f quot: ( ..a entry -- ..a ) -- ..a )
    [ dip ] curry [ dup next>> ] prepose [ dup ] swap while drop ; inline

! Doubles the number of lists.
: (rehash) ( hash -- )
    dup buckets>> dup length 2 * f <array>
    [ [ (link) ] curry [ (each-in-list) ] curry each ] keep >>buckets drop ;

! Adds an entry. Its key isn't there yet.
:: (add) ( entry hash -- )
    hash count>> 1 + dup hash count<<
    hash buckets>> length dup most-buckets < [ > ] [ 2drop f ] if [ hash (rehash) ] when
    entry hash buckets>> (link) ;

! Gives the key this value.
:: (put) ( value key hash -- )
    key hashcode :> code
    key code hash (entry-with)
    [ value swap value<< ] [ code key value f entry boa hash (add) ] if* ;

! Takes the entry out of its list.
:: (unlink) ( entry hash -- )
    hash count>> 1 - hash count<<
    entry code>> hash buckets>> (place) :> buckets :> n
    n buckets nth entry eq?
    [ entry next>> n buckets set-nth ]
    [
        n buckets nth [ dup next>> entry eq? ] [ next>> ] until
        entry next>> >>next drop
    ] if ;

! An array of what the callable makes of each entry.
:: (collect) ( hash quot -- array )
    hash count>> f <array> :> array
    0 hash buckets>> [ [ quot call over array set-nth 1 + ] (each-in-list) ] each drop
    array ; inline

PRIVATE>

! An empty hash table with room for `n` keys.
: <hashtable> ( n -- hash ) 0 swap (bucket-count) f <array> hashtable boa ;

M: hashtable at* (entry-at) [ value>> t ] [ f f ] if* ;

M: hashtable set-at (put) ;

M: hashtable delete-at [ (entry-at) ] keep over [ (unlink) ] [ 2drop ] if ;

M: hashtable clear-assoc 0 >>count dup buckets>> length f <array> >>buckets drop ;

M: hashtable assoc-size count>> ;

M: hashtable >alist [ [ key>> ] [ value>> ] bi 2array ] (collect) ;

M: hashtable keys [ key>> ] (collect) ;

M: hashtable values [ value>> ] (collect) ;

M: hashtable assoc-like
    drop dup length <hashtable> [ [ [ first2 swap ] dip set-at ] curry each ] keep ;

! A hash table of the keys and values of a table, and of equal keys of the last one.
: >hashtable ( assoc -- hash ) >alist 0 <hashtable> assoc-like ;

IN: math.statistics
USING: assocs hashtables kernel sequences ;

! A hash table of each element and how often it stands in the sequence.
: histogram ( seq -- hash )
    0 <hashtable> [ [ inc-at ] curry each ] keep ;
