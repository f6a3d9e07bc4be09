! Vectors, which are sequences that grow, by the names and effects that Factor has for them. It needs no other file.
!
! A vector keeps its elements in an array with room for more. Where `push` finds no room, that array becomes twice as long, so n times
! `push` copy less than 2 n elements. A vector has at most 1,000,000 elements, as an array; one more is `length` in `append`. An element
! that isn't there is `bounds` in `nth`.
!
! The words of the tool, as `length` and `each`, take arrays, strings and iotas alone. Those of their names in `growable` take vectors too,
! and are some slower: a file names the ones that it wants, as `FROM: growable => length each ;`, and these come before those of
! `sequences`. All others take `>array` of a vector, which is in `growable` too. Two vectors of the same elements are equal by `=` only
! where they have as much room; their arrays are.

IN: vectors
USING: accessors arrays kernel math math.private sequences ;
QUALIFIED-WITH: sequences s
QUALIFIED-WITH: arrays a

! The class of vectors. Its slots are the array, and how many of its places have an element.
TUPLE: vector underlying length ;

! An empty vector with room for `n` elements.
: <vector> ( n -- vector ) f <array> 0 vector boa ;

<PRIVATE

! How long the array becomes that has no more room.
: (longer) ( n -- m ) [ 2 * 4 + 1000000 min ] [ 1 + ] bi max ;

! Makes the array longer.
: (grow) ( vector -- )
    dup underlying>> dup length [ (longer) ] keep - f <array> append >>underlying drop ;

! Fails as `nth` does where there is no such place.
: (no-place) ( n -- * ) { } nth drop "never" throw ;

! Whether the vector has a place of this number.
: (place?) ( n vector -- ? ) over 0 < [ 2drop f ] [ length>> < ] if ;

! Fails where the vector has no place of this number.
: (check-place) ( n vector -- n vector ) 2dup (place?) [ drop (no-place) ] unless ;

PRIVATE>

IN: growable
USING: accessors kernel math math.private sequences vectors vectors.private ;
FROM: arrays => <array> ;

! The number of elements of a vector or another sequence.
GENERIC: length ( seq -- n )

M: object length s:length ;

M: vector length length>> ;

! The element in place `n` of a vector or another sequence.
GENERIC: nth ( n seq -- elt )

M: object nth s:nth ;

M: vector nth (check-place) underlying>> s:nth ;

! Puts `elt` into place `n` of a vector or an array. A vector doesn't grow by it.
GENERIC: set-nth ( elt n seq -- )

M: object set-nth s:set-nth ;

M: vector set-nth (check-place) underlying>> s:set-nth ;

! A new array of the elements of a vector or another sequence.
GENERIC: >array ( seq -- array )

M: object >array a:>array ;

M: vector >array [ length>> 0 swap ] [ underlying>> ] bi subseq ;

<PRIVATE

! The number of elements, and a sequence of the tool that begins with them.
GENERIC: (elements) ( seq -- n seq )

M: object (elements) [ s:length ] keep ;

M: vector (elements) [ length>> ] [ underlying>> ] bi ;

PRIVATE>

! Whether a vector or another sequence has no element.
: empty? ( seq -- ? ) length 0 = ;

! The first element of a vector or another sequence.
: first ( seq -- elt ) 0 swap nth ;

! The second element of a vector or another sequence.
: second ( seq -- elt ) 1 swap nth ;

! The last element of a vector or another sequence.
: last ( seq -- elt ) [ length 1 - ] keep nth ;

! Runs the callable on each element of a vector or another sequence. Of a vector these are the elements that it has at the beginning.
: each ( ..a seq quot: ( ..a x -- ..a ) -- ..a )
    [ (elements) [ s:nth ] curry ] dip compose 0 -rot (each-integer) ; inline

! An array, also of a vector, of what the callable makes of each element.
: map ( ..a seq quot: ( ..a x -- ..a y ) -- ..a newseq )
    [ >array ] dip s:map ; inline

! An array, also of a vector, of the elements for which the callable doesn't leave `f`.
: filter ( ..a seq quot: ( ..a x -- ..a ? ) -- ..a newseq )
    [ >array ] dip s:filter ; inline

! Begins with `id`, and has the callable make the next value of it and each element of a vector or another sequence.
: reduce ( ..a seq id quot: ( ..a prev x -- ..a next ) -- ..a result )
    swapd each ; inline

! The sum of the elements of a vector or another sequence.
: sum ( seq -- n ) 0 [ + ] reduce ;

IN: vectors
USING: accessors kernel math sequences ;
FROM: growable => >array ;

! A vector of the elements of a sequence, which may be a vector too.
: >vector ( seq -- vector ) >array dup s:length vector boa ;

! A vector of this element.
: 1vector ( x -- vector ) a:1array >vector ;

IN: sequences
USING: accessors kernel math vectors vectors.private ;
QUALIFIED-WITH: growable growable

! Puts the element behind all others of the vector.
:: push ( elt vector -- )
    vector length>> :> n
    n vector underlying>> s:length = [ vector (grow) ] when
    elt n vector underlying>> s:set-nth
    n 1 + vector length<< ;

! Takes the last element off the vector, and leaves it.
:: pop ( vector -- elt )
    vector length>> 1 - :> n
    n vector underlying>> s:nth
    f n vector underlying>> s:set-nth
    n vector length<< ;

! Takes the last element off the vector.
: pop* ( vector -- ) pop drop ;

! Puts `elt` into the last place of a vector or an array.
: set-last ( elt seq -- ) [ growable:length 1 - ] keep growable:set-nth ;

! Puts the elements of a sequence, which may be a vector too, behind those of the vector.
: push-all ( seq vector -- ) swap growable:>array [ over push ] each drop ;

! Takes all elements behind the first `n` off the vector. Where it has no more, nothing happens.
: shorten ( n vector -- )
    [ 2dup length>> < ] [ dup pop* ] while 2drop ;

! Takes all elements off the vector.
: delete-all ( vector -- ) 0 swap shorten ;
