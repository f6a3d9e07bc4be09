! Tables of keys and values, by the names and effects that Factor has for them. It needs `lib/sequences.factor` before it.
!
! The words here take arrays of pairs, which are arrays of two elements, a key and its value; with `lib/hashtables.factor` they take hash
! tables too. Keys are compared by `=`. Of two pairs with equal keys the first counts, and a search takes time in proportion to the number
! of pairs. Arrays don't grow: `set-at` changes the pair that is there, and `put-at`, which Factor doesn't have, makes a new table.

IN: assocs
USING: arrays kernel math sequences ;

<PRIVATE

! The pair with this key, or `f`.
: (pair-at) ( key assoc -- pair/f ) [ first = ] with find nip ;

PRIVATE>

! What tables do: a class of tables has a method of each.

! The value of the key, and whether the key is there.
GENERIC: at* ( key assoc -- value/f ? )

M: sequence at* (pair-at) [ second t ] [ f f ] if* ;

! Gives the key this value. In an array of pairs the key has to be there, and is thrown where it isn't.
GENERIC: set-at ( value key assoc -- )

M: sequence set-at dupd (pair-at) [ nip 1 swap set-nth ] [ throw ] if* ;

! Takes the key and its value away, where it is there. There is no method for arrays of pairs, which can't become shorter.
GENERIC: delete-at ( key assoc -- )

! Takes all keys away. There is no method for arrays of pairs.
GENERIC: clear-assoc ( assoc -- )

! The number of keys; in an array of pairs that of pairs.
GENERIC: assoc-size ( assoc -- n )

M: sequence assoc-size length ;

! An array of pairs of the keys and values. That of an array of pairs is this array itself.
GENERIC: >alist ( assoc -- alist )

M: sequence >alist ;

! A table of these pairs of the kind of `exemplar`.
GENERIC: assoc-like ( alist exemplar -- assoc )

M: sequence assoc-like drop ;

! An array of the keys.
GENERIC: keys ( assoc -- keys )

M: object keys >alist [ first ] map ;

! An array of the values, in the order of their keys.
GENERIC: values ( assoc -- values )

M: object values >alist [ second ] map ;

! The value of the key, or `f`.
: at ( key assoc -- value/f ) at* drop ;

! The same as `at`, with the table first.
: of ( assoc key -- value/f ) swap at ;

! Whether the key is there.
: key? ( key assoc -- ? ) at* nip ;

! The value of the key, or the key itself where it isn't there.
: ?at ( key assoc -- value/key ? ) dupd at* [ nip t ] [ drop f ] if ;

! Whether there is no key.
: assoc-empty? ( assoc -- ? ) assoc-size 0 = ;

! The first key with this value, or `f`.
: value-at ( value assoc -- key/f ) >alist [ second = ] with find nip dup [ first ] when ;

! Whether a key has this value.
: value? ( value assoc -- ? ) >alist [ second = ] with any? ;

! A new table in which the key has this value: of an array of pairs, in a new pair in the place of the old one, or behind all others.
: put-at ( value key assoc -- newassoc )
    [ swap 2array ] dip over first over [ first = ] with find drop
    [ swap >array [ set-nth ] keep ] [ swap suffix ] if* ;

! Gives the key what the callable makes of its value, or of `f` where the key isn't there.
: change-at ( ..a key assoc quot: ( ..a value -- ..b newvalue ) -- ..b )
    [ [ at ] 2keep ] dip -rot [ call ] 2dip set-at ; inline

! Adds `n` to the value of the key, which is 0 where the key isn't there.
: at+ ( n key assoc -- ) [ 0 or + ] change-at ;

! Adds 1 to the value of the key, which is 0 where the key isn't there.
: inc-at ( key assoc -- ) [ 1 ] 2dip at+ ;

! The value of the key. Where it isn't there, the callable makes the value of the key, which is put there.
:: cache ( ..a key assoc quot: ( ..a key -- ..a value ) -- ..a value )
    key assoc at* [ drop key quot call dup key assoc set-at ] unless ; inline

! Takes the key away, and leaves its value and whether it was there.
: delete-at* ( key assoc -- value/f ? ) [ at* ] 2keep delete-at ;

! Gives the keys of `assoc2` their values in `assoc1` too.
: assoc-union! ( assoc1 assoc2 -- assoc1 )
    >alist over [ [ [ second ] [ first ] bi ] dip set-at ] curry each ;

! A table of these keys and values, up to the end of the shorter sequence.
: zip ( keys values -- alist ) [ 2array ] 2map ;

! An array of pairs of each element and its place.
: zip-index ( seq -- alist ) [ 2array ] map-index ;

! The keys and the values.
: unzip ( assoc -- keys values ) [ keys ] [ values ] bi ;

! Runs the callable on each key and value. They are those that the table has at the beginning.
: assoc-each ( ..a assoc quot: ( ..a key value -- ..a ) -- ..a )
    [ >alist ] [ [ first2 ] prepose ] bi* each ; inline

! A table of the same kind, of the keys and values that the callable makes of each key and value.
: assoc-map ( ..a assoc quot: ( ..a key value -- ..a newkey newvalue ) -- ..a newassoc )
    over [
        [ >alist ] [ [ first2 ] prepose [ 2array ] compose ] bi* map
    ] dip assoc-like ; inline

! A table of the same kind, of the keys and values for which the callable doesn't leave `f`.
: assoc-filter ( ..a assoc quot: ( ..a key value -- ..a ? ) -- ..a newassoc )
    over [ [ >alist ] [ [ first2 ] prepose ] bi* filter ] dip assoc-like ; inline

! A key and its value for which the callable doesn't leave `f`, and whether there is one.
: assoc-find ( ..a assoc quot: ( ..a key value -- ..a ? ) -- ..a key value ? )
    [ >alist ] [ [ first2 ] prepose ] bi* find nip
    dup [ first2 t ] [ drop f f f ] if ; inline

! Whether the callable doesn't leave `f` for some key and value.
: assoc-any? ( ..a assoc quot: ( ..a key value -- ..a ? ) -- ..a ? )
    [ >alist ] [ [ first2 ] prepose ] bi* any? ; inline

! Whether the callable leaves `f` for no key and value.
: assoc-all? ( ..a assoc quot: ( ..a key value -- ..a ? ) -- ..a ? )
    [ >alist ] [ [ first2 ] prepose ] bi* all? ; inline
