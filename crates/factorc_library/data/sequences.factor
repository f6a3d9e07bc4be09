! More words on sequences, by the names and effects that Factor has for them. It needs no other file.
!
! What is made of several sequences is a string where all of them are strings, and otherwise an array, as `append` has it. What is made
! element by element is an array.

IN: sequences
USING: kernel math arrays ;

! Places and parts

! The third element.
: third ( seq -- elt ) 2 swap nth ;

! The first two elements.
: first2 ( seq -- first second ) [ first ] [ second ] bi ;

! The first three elements.
: first3 ( seq -- first second third ) [ first2 ] [ third ] bi ;

! Whether the sequence has a place of this number.
: bounds-check? ( n seq -- ? ) over 0 < [ 2drop f ] [ length < ] if ;

! The element in this place, or `f` where there is no such place.
: ?nth ( n seq -- elt/f ) 2dup bounds-check? [ nth ] [ 2drop f ] if ;

! The first `n` elements.
: head ( seq n -- headseq ) 0 swap rot subseq ;

! The elements behind the first `n`.
: tail ( seq n -- tailseq ) over length rot subseq ;

! All elements but the first.
: rest ( seq -- tailseq ) 1 tail ;

! All elements but the last.
: but-last ( seq -- headseq ) dup length 1 - head ;

! All elements but the first, and the first.
: unclip ( seq -- rest first ) [ rest ] [ first ] bi ;

! All elements but the last, and the last.
: unclip-last ( seq -- headseq last ) [ but-last ] [ last ] bi ;

! The first `n` elements, and those behind them.
: cut ( seq n -- before after ) [ head ] 2keep tail ;

! The first elements but the last `n`.
: head* ( seq n -- headseq ) over length swap - head ;

! The last `n` elements.
: tail* ( seq n -- tailseq ) over length swap - tail ;

! The elements but the last `n`, and these.
: cut* ( seq n -- before after ) over length swap - cut ;

! The elements of `seq2` and then those of `seq1`.
: prepend ( seq1 seq2 -- newseq ) swap append ;

! The elements of three sequences, one behind the other.
: 3append ( seq1 seq2 seq3 -- newseq ) append append ;

! The elements of `seq2`, of `seq1` and of `seq3`, one behind the other: `"b" "(" ")" surround` leaves `"(b)"`.
: surround ( seq1 seq2 seq3 -- newseq ) swapd [ append ] dip append ;

! The elements of `seq1`, of `seq3` and of `seq2`, one behind the other: `"a" "b" ", " glue` leaves `"a, b"`.
: glue ( seq1 seq2 seq3 -- newseq ) swap append append ;

! An array of this element and the elements behind it.
: prefix ( seq elt -- newseq ) 1array swap append ;

! Whether the sequence begins with the elements of another one of its kind.
: head? ( seq begin -- ? )
    2dup [ length ] bi@ < [ 2drop f ] [ [ length head ] keep = ] if ;

! Whether the sequence ends with the elements of another one of its kind.
: tail? ( seq end -- ? )
    2dup [ length ] bi@ < [ 2drop f ]
    [ [ [ dup length ] dip length - tail ] keep = ] if ;

! Replaces the element in this place by what the callable makes of it.
: change-nth ( ..a i seq quot: ( ..a elt -- ..b newelt ) -- ..b )
    [ 2dup nth -rot ] dip -rot [ call ] 2dip set-nth ; inline

! Exchanges the elements in two places of an array.
:: exchange ( m n seq -- )
    m seq nth n seq nth m seq set-nth n seq set-nth ;

! Two sequences, and places

<PRIVATE

! The numbers of the places of a sequence, and the callable that runs `quot` on the element in a place and the place.
: (indexed) ( seq quot -- iota newquot )
    [ dup length <iota> swap [ dupd nth swap ] curry ] dip compose ; inline

! The numbers of the places that both sequences have, and the callable that runs `quot` on the elements in a place.
: (paired) ( seq1 seq2 quot -- iota newquot )
    [
        2dup [ length ] bi@ min <iota> -rot
        [ [ dupd nth swap ] dip nth ] 2curry
    ] dip compose ; inline

PRIVATE>

! Runs the callable on each element and its place.
: each-index ( ..a seq quot: ( ..a elt index -- ..a ) -- ..a )
    (indexed) each ; inline

! An array of what the callable makes of each element and its place.
: map-index ( ..a seq quot: ( ..a elt index -- ..a newelt ) -- ..a newseq )
    (indexed) map ; inline

! Runs the callable on the elements of both sequences in each place, up to the end of the shorter one.
: 2each ( ..a seq1 seq2 quot: ( ..a elt1 elt2 -- ..a ) -- ..a )
    (paired) each ; inline

! An array of what the callable makes of the elements of both sequences in each place, up to the end of the shorter one.
: 2map ( ..a seq1 seq2 quot: ( ..a elt1 elt2 -- ..a newelt ) -- ..a newseq )
    (paired) map ; inline

! As `reduce` with the elements of both sequences in each place, up to the end of the shorter one.
: 2reduce ( ..a seq1 seq2 identity quot: ( ..a prev elt1 elt2 -- ..a next ) -- ..a result )
    [ -rot ] dip 2each ; inline

! What `reduce` leaves, and behind it an array of what the callable was handed with each element: the `identity` with the first one.
: accumulate ( ..a seq identity quot: ( ..a prev elt -- ..a next ) -- ..a final newseq )
    [ swap ] dip [ dip ] curry [ over ] prepose map ; inline

! Runs `quot` on each element, and `between` before each one but the first.
:: interleave ( ..a seq between: ( ..a -- ..a ) quot: ( ..a elt -- ..a ) -- ..a )
    seq [ zero? [ between dip ] unless quot call ] each-index ; inline

! An array of what the callable leaves at each of `len` runs.
: replicate ( ..a len quot: ( ..a -- ..a newelt ) -- ..a newseq )
    [ <iota> ] dip [ drop ] prepose map ; inline

! Searching

<PRIVATE

! The first integer from `i` up to `n`, which is left out, for which the callable doesn't leave `f`; or `f`.
: (find-integer) ( ..a i n quot: ( ..a i -- ..a ? ) -- ..a i/f )
    pick pick < [
        pick over curry 3dip [ rot ] dip swap
        [ 2drop ] [ [ 1 + ] 2dip (find-integer) ] if
    ] [ 3drop f ] if ; inline recursive

! The first place for whose element the callable doesn't leave `f`; or `f`.
: (find) ( ..a seq quot: ( ..a elt -- ..a ? ) -- ..a i/f )
    [ dup length swap [ nth ] curry ] dip compose
    0 -rot (find-integer) ; inline

PRIVATE>

! The first element for which the callable doesn't leave `f`, behind its place; or twice `f`. No later element is looked at.
: find ( ..a seq quot: ( ..a elt -- ..a ? ) -- ..a i elt )
    over [ (find) ] dip over [ dupd nth ] [ 2drop f f ] if ; inline

! Whether the callable doesn't leave `f` for some element. No later element is looked at.
: any? ( ..a seq quot: ( ..a elt -- ..a ? ) -- ..a ? )
    (find) not not ; inline

! Whether the callable leaves `f` for no element.
: all? ( ..a seq quot: ( ..a elt -- ..a ? ) -- ..a ? )
    [ not ] compose (find) not ; inline

! Whether the callable leaves `f` for no two elements in the same place of both sequences, up to the end of the shorter one.
: 2all? ( ..a seq1 seq2 quot: ( ..a elt1 elt2 -- ..a ? ) -- ..a ? )
    [ not ] compose (paired) (find) not ; inline

! Whether the callable leaves `f` for each element.
: none? ( ..a seq quot: ( ..a elt -- ..a ? ) -- ..a ? )
    (find) not ; inline

! The first place of an element that is equal to `obj`; or `f`.
: index ( obj seq -- n ) [ = ] with find drop ;

! The last place of an element that is equal to `obj`; or `f`.
: last-index ( obj seq -- n )
    [ reverse index ] keep over [ length swap - 1 - ] [ drop ] if ;

! An array of the places of elements that are equal to `obj`.
: indices ( obj seq -- indices )
    [ [ = ] with map ] keep length <iota> (select) ;

! Whether an element is equal to `obj`.
: member? ( obj seq -- ? ) index not not ;

! The first place from which on the elements of `subseq`, a sequence of the same kind, stand; or `f`.
: subseq-index ( seq subseq -- i/f )
    2dup [ length ] bi@ - 1 + 0 max <iota> -rot
    [ [ length rot dup rot + rot subseq ] keep = ] 2curry (find) ;

! Counting, selecting, summing

! The sum of what the callable makes of each element.
: map-sum ( ..a seq quot: ( ..a elt -- ..a n ) -- ..a n )
    [ 0 ] 2dip [ dip + ] curry [ swap ] prepose each ; inline

! The number of elements for which the callable doesn't leave `f`.
: count ( ..a seq quot: ( ..a elt -- ..a ? ) -- ..a n )
    [ 1 0 ? ] compose map-sum ; inline

! An array of the elements for which the callable leaves `f`.
: reject ( ..a seq quot: ( ..a elt -- ..a ? ) -- ..a newseq )
    [ not ] compose filter ; inline

! The array of the elements for which the callable doesn't leave `f`, and that of the others.
: partition ( ..a seq quot: ( ..a elt -- ..a ? ) -- ..a trueseq falseseq )
    over [ map ] dip 2dup (select) -rot [ [ not ] map ] dip (select) ; inline

! An array of the elements that aren't equal to `elt`.
: remove ( elt seq -- newseq ) [ = ] with reject ;

! The product of the elements, 1 where there are none.
: product ( seq -- n ) 1 [ * ] reduce ;

! The greatest of some integers.
: maximum ( seq -- elt ) dup first [ max ] reduce ;

! The least of some integers.
: minimum ( seq -- elt ) dup first [ min ] reduce ;

! The sequence without the element in place `n`.
:: remove-nth ( n seq -- newseq ) seq n head seq n 1 + tail append ;

! An array with `elt` before the element in place `n`.
: insert-nth ( elt n seq -- newseq ) swap cut [ swap suffix ] dip append ;

! Whether both sequences have as many elements.
: same-length? ( seq1 seq2 -- ? ) [ length ] bi@ = ;

! Runs `quot1` where there is no element, and otherwise `quot2` on the sequence.
: if-empty ( ..a seq quot1: ( ..a -- ..b ) quot2: ( ..a seq -- ..b ) -- ..b )
    pick empty? [ drop nip call ] [ nip call ] if ; inline

! Joining and splitting

USE: math.private

<PRIVATE

! The sequences in the places from `from` up to `to`, of which there is one, one behind the other. Both halves of many are made in the same way.
:: (concat) ( from to seq -- newseq )
    to from - 9 < [
        from seq nth from 1 + to [ seq nth append ] (each-integer)
    ] [
        from to + 2 /i :> middle
        from middle seq (concat) middle to seq (concat) append
    ] if ;

! The same, with `joint` between each two.
:: (join) ( from to seq joint -- newseq )
    to from - 9 < [
        from seq nth from 1 + to [ [ joint append ] dip seq nth append ] (each-integer)
    ] [
        from to + 2 /i :> middle
        from middle seq joint (join) joint append
        middle to seq joint (join) append
    ] if ;

PRIVATE>

! The sequences one behind the other, with `joint` between each two. Each element is copied once for each doubling of their number.
:: join ( seq joint -- newseq )
    0 0 joint subseq
    seq empty? [
        0 seq length seq joint empty? [ (concat) ] [ joint (join) ] if append
    ] unless ;

! The sequences one behind the other; an array where there are none.
: concat ( seq -- newseq )
    dup empty? [ >array ] [ "" join ] if ;

! The sequences that the callable makes of each element, one behind the other.
: map-concat ( ..a seq quot: ( ..a elt -- ..a newelts ) -- ..a newseq )
    map concat ; inline

IN: arrays
USING: kernel sequences ;

! The array of these three.
: 3array ( x y z -- array ) [ 2array ] dip suffix ;

! The array of these four.
: 4array ( w x y z -- array ) [ 2array ] 2dip 2array append ;

IN: splitting
USING: kernel math sequences sequences.private ;

<PRIVATE

! For each element whether it is in `separators`.
:: (separates) ( seq separators -- flags )
    separators length 1 =
    [ separators first :> elt seq [ elt = ] map ]
    [ seq [ separators member? ] map ] if ;

PRIVATE>

! An array of the parts between the elements that are in `separators`. Two of them in a row have an empty part between them.
:: split ( seq separators -- pieces )
    seq separators (separates) seq length <iota> (select) seq length suffix
    0 swap [ [ seq subseq ] keep 1 + swap ] map nip ;

<PRIVATE

! Whether the elements of `part`, of which there is one, stand from place `i` on.
:: (stands?) ( i seq part -- ? )
    i seq nth part first =
    [ i i part length + dup seq length > [ 2drop f ] [ seq subseq part = ] if ] [ f ] if ;

! The places where the elements of `part` stand, of which each is behind the elements of the one before.
:: (places) ( seq part -- places )
    0 seq length <iota> [| free i |
        free i > not [ i seq part (stands?) ] [ f ] if
        [ i part length + t ] [ free f ] if
    ] map nip seq length <iota> (select) ;

PRIVATE>

! An array of the parts between the places where the elements of `part` stand. Where `part` has no element, it is thrown.
:: split-subseq ( seq part -- seqs )
    part empty? [ part throw ] when
    0 seq part (places) seq length suffix
    [ [ seq subseq ] keep part length + swap ] map nip ;

! What stands before and behind the first place where the elements of `subseq` stand; or the sequence and `f`.
: split1 ( seq subseq -- before after )
    2dup subseq-index dup
    [ swap length over + pick swap tail [ head ] dip ]
    [ 2drop f ] if ;

! The sequence with `new` in place of each `old`.
: replace ( seq old new -- newseq ) [ split-subseq ] dip join ;

IN: grouping
USING: kernel math sequences ;

<PRIVATE

! Fails unless `n`, the length of a part, is positive.
: (check-part) ( n -- n ) dup 0 > [ dup throw ] unless ;

PRIVATE>

! An array of the parts of `n` elements, one behind the other. The last one may have fewer. Where `n` isn't positive, it is thrown.
:: group ( seq n -- groups )
    seq length n (check-part) 1 - + n /i <iota>
    [ n * dup n + seq length min seq subseq ] map ;

! An array of all parts of `n` elements, from each place on. Where `n` isn't positive, it is thrown.
:: clump ( seq n -- clumps )
    seq length n (check-part) - 1 + 0 max <iota>
    [ dup n + seq subseq ] map ;

! Whether all elements are equal.
: all-equal? ( seq -- ? )
    dup empty? [ drop t ] [ [ first ] keep [ = ] with all? ] if ;

! Whether the callable doesn't leave `f` for each two elements that stand beside each other.
: monotonic? ( ..a seq quot: ( ..a elt1 elt2 -- ..a ? ) -- ..a ? )
    [ dup dup empty? [ rest ] unless ] dip 2all? ; inline
