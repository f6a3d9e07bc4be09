! Queues with two ends, by the names and effects that Factor has for them. It needs no other file.
!
! A queue is a list whose elements know both neighbours, so a word for one element takes the same time in a queue of any length. To look at an empty queue leaves `f`; to take from it is thrown as `"empty-deque"`.

IN: dlists
USING: accessors kernel math ;

! The class of queues.
TUPLE: dlist front back count ;

<PRIVATE

! An element with what is before and behind it, each of which is `f` or such a one.
TUPLE: dlist-node obj prev next ;

PRIVATE>

! An empty queue.
: <dlist> ( -- dlist ) f f 0 dlist boa ;

IN: deques
USING: accessors arrays dlists dlists.private kernel math sequences ;

! The number of elements.
: deque-length ( deque -- n ) count>> ;

! Whether there is no element.
: deque-empty? ( deque -- ? ) count>> 0 = ;

<PRIVATE

! Makes these two neighbours, of which one may be `f`: the other one is at an end of the queue then.
:: (link) ( prev next deque -- )
    prev [ next prev next<< ] [ next deque front<< ] if
    next [ prev next prev<< ] [ prev deque back<< ] if ;

! Puts the element between these two, which are neighbours or `f`.
:: (insert) ( obj prev next deque -- )
    obj prev next dlist-node boa :> node
    prev node deque (link) node next deque (link)
    deque count>> 1 + deque count<< ;

! Takes the element out.
:: (remove) ( node deque -- obj )
    node prev>> node next>> deque (link)
    deque count>> 1 - deque count<<
    node obj>> ;

! Fails, since the queue is empty.
: (empty) ( -- * ) "empty-deque" throw ;

PRIVATE>

! Puts the element before all others.
: push-front ( obj deque -- ) f over front>> rot (insert) ;

! Puts the element behind all others.
: push-back ( obj deque -- ) dup back>> f rot (insert) ;

! The first element, or `f`.
: peek-front ( deque -- obj/f ) front>> dup [ obj>> ] when ;

! The last element, or `f`.
: peek-back ( deque -- obj/f ) back>> dup [ obj>> ] when ;

! Takes the first element out, and leaves it.
: pop-front ( deque -- obj ) dup front>> [ swap (remove) ] [ drop (empty) ] if* ;

! Takes the last element out, and leaves it.
: pop-back ( deque -- obj ) dup back>> [ swap (remove) ] [ drop (empty) ] if* ;

! Takes the first element out.
: pop-front* ( deque -- ) pop-front drop ;

! Takes the last element out.
: pop-back* ( deque -- ) pop-back drop ;

! Puts the elements of the sequence before all others, one after another.
: push-all-front ( seq deque -- ) [ push-front ] curry each ;

! Puts the elements of the sequence behind all others, one after another.
: push-all-back ( seq deque -- ) [ push-back ] curry each ;

! Takes out all elements, and those that come meanwhile, the first one first, and runs the callable on each.
:: slurp-deque ( ..a deque quot: ( ..a obj -- ..a ) -- ..a )
    [ deque deque-empty? not ] [ deque pop-front quot call ] while ; inline

! Takes all elements out.
: clear-deque ( deque -- ) f >>front f >>back 0 >>count drop ;

IN: dlists
USING: accessors arrays deques kernel math sequences ;

! An array of the elements of a queue, the first one first.
: dlist>sequence ( dlist -- seq )
    [ front>> ] [ count>> <iota> ] bi [ drop [ next>> ] [ obj>> ] bi ] map nip ;
