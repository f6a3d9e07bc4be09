! Sets, by the names and effects that Factor has for them. It needs `lib/sequences.factor`, `lib/assocs.factor` and `lib/hashtables.factor`
! before it.
!
! A set is a hash set, to which elements are added, or a sequence, of which equal elements count once. The words for two sets take a time in
! proportion to their sizes, also for sequences, since they make a hash table of one of them. What they make is a hash set where the first set
! is one, and otherwise an array.

IN: sets
USING: accessors arrays assocs hashtables kernel math sequences ;

! The class of hash sets.
TUPLE: hash-set table ;

! An empty hash set with room for `n` elements.
: <hash-set> ( n -- hash-set ) <hashtable> hash-set boa ;

! Adds the element, where it isn't there.
: adjoin ( elt hash-set -- ) dupd table>> set-at ;

! Takes the element away, where it is there.
: delete ( elt hash-set -- ) table>> delete-at ;

! Takes all elements away.
: clear-set ( hash-set -- ) table>> clear-assoc ;

! Whether the element is in the set. In a sequence it is looked for.
GENERIC: in? ( elt set -- ? )

M: sequence in? member? ;

M: hash-set in? table>> key? ;

! A hash set of the elements.
GENERIC: >hash-set ( set -- hash-set )

M: sequence >hash-set dup length <hash-set> [ [ adjoin ] curry each ] keep ;

M: hash-set >hash-set table>> keys >hash-set ;

! An array of the elements, each once. Those of a sequence stand in its order.
GENERIC: members ( set -- seq )

M: hash-set members table>> keys ;

<PRIVATE

! Whether the element isn't in the hash set, to which it is added.
: (new?) ( elt hash-set -- ? ) 2dup in? [ 2drop f ] [ adjoin t ] if ;

! The set itself where it is a hash set, and otherwise one of its elements.
GENERIC: (fast) ( set -- hash-set )

M: sequence (fast) >hash-set ;

M: hash-set (fast) ;

! A set of these elements of the kind of the other one.
GENERIC: (set-like) ( seq set -- newset )

M: sequence (set-like) drop ;

M: hash-set (set-like) drop >hash-set ;

PRIVATE>

M: sequence members 0 <hash-set> [ (new?) ] curry filter ;

! Adds the element, and leaves whether it wasn't there.
: ?adjoin ( elt hash-set -- ? ) (new?) ;

! The number of elements.
GENERIC: cardinality ( set -- n )

M: sequence cardinality members length ;

M: hash-set cardinality table>> assoc-size ;

! The elements of both sets.
: union ( set1 set2 -- set )
    over [ [ members ] bi@ append members ] dip (set-like) ;

! The elements of the first set that are in the second one too.
: intersect ( set1 set2 -- set )
    over [ [ members ] [ (fast) ] bi* [ in? ] curry filter ] dip (set-like) ;

! The elements of the first set that aren't in the second one.
: diff ( set1 set2 -- set )
    over [ [ members ] [ (fast) ] bi* [ in? not ] curry filter ] dip (set-like) ;

! Whether some element is in both sets.
: intersects? ( set1 set2 -- ? )
    [ members ] [ (fast) ] bi* [ in? ] curry any? ;

! Whether all elements of the first set are in the second one.
: subset? ( set1 set2 -- ? )
    [ members ] [ (fast) ] bi* [ in? ] curry all? ;

! Whether both sets have the same elements.
: set= ( set1 set2 -- ? ) 2dup subset? [ swap subset? ] [ 2drop f ] if ;

! An array of the elements that are equal to one before them, in their order.
: duplicates ( seq -- newseq ) 0 <hash-set> [ (new?) not ] curry filter ;

! Whether no two elements are equal.
: all-unique? ( seq -- ? ) 0 <hash-set> [ (new?) ] curry all? ;
