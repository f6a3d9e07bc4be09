! Comparing values, and a stable sort, by the names and effects that Factor has for them. It needs no other file.
!
! Integers are compared as numbers, and sequences element by element: of two that agree up to the end of the shorter one, that comes
! first. So strings are in the order of their code points. What is sorted is an array, in which values that compare as equal stand as
! they stood before.

IN: math.order
USING: kernel math sequences ;

! What a comparison leaves: the first value comes before the second, is equal to it, or comes after it.
SINGLETON: +lt+
SINGLETON: +eq+
SINGLETON: +gt+

! Compares two values.
GENERIC: <=> ( obj1 obj2 -- <=> )

! Whether the first value comes after the second.
GENERIC: after? ( obj1 obj2 -- ? )

M: integer <=> 2dup < [ 2drop +lt+ ] [ > [ +gt+ ] [ +eq+ ] if ] if ;

M: integer after? > ;

M: object after? <=> +gt+ eq? ;

<PRIVATE

! Whether both sequences have this place.
: (in-both?) ( n seq1 seq2 -- ? ) [ length ] bi@ min < ;

! The elements of both sequences in this place.
: (nth-both) ( n seq1 seq2 -- elt1 elt2 ) [ dupd nth swap ] dip nth ;

! Whether both sequences have this place, with elements in it that compare as equal.
: (same-in?) ( n seq1 seq2 -- ? )
    3dup (in-both?) [ (nth-both) <=> +eq+ eq? ] [ 3drop f ] if ;

PRIVATE>

M: sequence <=>
    0 -rot [ 3dup (same-in?) ] [ [ 1 + ] 2dip ] while
    3dup (in-both?) [ (nth-both) <=> ] [ [ length ] bi@ <=> nip ] if ;

! Whether the first value comes before the second.
: before? ( obj1 obj2 -- ? ) swap after? ;

! Whether the first value comes before the second or is equal to it.
: before=? ( obj1 obj2 -- ? ) after? not ;

! Whether the first value comes after the second or is equal to it.
: after=? ( obj1 obj2 -- ? ) swap after? not ;

! Compares what the callable makes of two values.
: compare ( obj1 obj2 quot -- <=> ) bi@ <=> ; inline

! What the comparison of the same two values in the other order leaves.
: invert-comparison ( <=> -- >=< )
    dup +lt+ eq? [ drop +gt+ ] [ +gt+ eq? [ +lt+ ] [ +eq+ ] if ] if ;

! Compares two values, with the greater one first.
: >=< ( obj1 obj2 -- >=< ) <=> invert-comparison ;

IN: sorting
USING: accessors kernel math math.order sequences ;

<PRIVATE

! Sorting merges lists of nodes: at first each element is a list, and each pass merges every two lists that stand beside each other.
! A node has what it is compared by, the element, and the node behind it or `f`.
TUPLE: node sort-key element behind ;

! A list of one node.
: <node> ( key elt -- node ) f node boa ;

! Puts the nodes of `x` between those behind `p`, where there is one at least. In each turn the first one of `x` is compared with the one
! behind `p`. If it comes after that, this goes on to the node behind `p`; if not, the first node of `x` is put there, and becomes `p`.
: (merge) ( ..a x p quot: ( ..a key1 key2 -- ..a ? ) -- ..a )
    [
        swap [ dip ] dip rot
        [ behind>> dup behind>> ] [
            over behind>> -rot
            dup behind>> pick behind<< dupd behind<< over
        ] if
    ] curry
    [ over sort-key>> -rot dup behind>> sort-key>> -rot ] prepose loop
    dup behind>> [ 2drop ] [ behind<< ] if ; inline

! The merged list of two.
: merge ( ..a list1 list2 quot: ( ..a key1 key2 -- ..a ? ) -- ..a list )
    swap [ f f ] dip node boa [ swap (merge) ] keep behind>> ; inline

! The lists in the places 2 i and 2 i + 1; `f` for the second one where the first is the last.
: pair ( i lists -- list1 list2/f )
    [ 2 * ] dip 2dup nth -rot [ 1 + ] dip
    2dup length < [ nth ] [ 2drop f ] if ;

! Half as many lists, each merged of two.
: pass ( ..a lists quot: ( ..a key1 key2 -- ..a ? ) -- ..a newlists )
    over length 1 + 2 /i <iota> -rot
    [ [ pair ] dip over [ merge ] [ 2drop ] if ] 2curry map ; inline

! An array of the elements of a list, of which there are as many as in `seq`.
: elements ( list seq -- newseq )
    [ drop [ behind>> ] [ element>> ] bi ] map nip ;

! The sorted elements of lists of one node. The callable tells whether what is compared of an element comes after that of a later one.
: (sort) ( ..a lists quot: ( ..a key1 key2 -- ..a ? ) -- ..a sortedseq )
    over [
        [ pass ] curry [ dup length 1 > ] swap while
        dup empty? [ drop f ] [ first ] if
    ] dip elements ; inline

PRIVATE>

! An array of the elements in order.
: sort ( seq -- sortedseq ) [ dup <node> ] map [ after? ] (sort) ;

! An array of the elements in the order that the callable tells for two of them, by `+lt+`, `+eq+` or `+gt+`.
: sort-with ( ..a seq quot: ( ..a obj1 obj2 -- ..a <=> ) -- ..a sortedseq )
    [ +gt+ eq? ] compose [ [ dup <node> ] map ] dip (sort) ; inline

! As `sort-with`, in the other order.
: inv-sort-with ( ..a seq quot: ( ..a obj1 obj2 -- ..a <=> ) -- ..a sortedseq )
    [ invert-comparison ] compose sort-with ; inline

! An array of the elements in the order of what the callable makes of each. It runs once for each element.
: sort-by ( ..a seq quot: ( ..a elt -- ..a key ) -- ..a sortedseq )
    [ keep <node> ] curry map [ after? ] (sort) ; inline

! As `sort-by`, in the other order.
: inv-sort-by ( ..a seq quot: ( ..a elt -- ..a key ) -- ..a sortedseq )
    [ keep <node> ] curry map [ swap after? ] (sort) ; inline

! An array of pairs in the order of their first elements.
: sort-keys ( obj -- sortedseq ) [ first ] sort-by ;

! An array of pairs in the order of their second elements.
: sort-values ( obj -- sortedseq ) [ second ] sort-by ;
