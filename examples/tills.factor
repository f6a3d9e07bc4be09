! A shop with tills, event by event: a customer comes and waits, goes to a till that is free, and leaves it.
!
! It shows a heap of events that are to come, two queues, a generic word for what happens, and keys that are arrays: of two events of a
! minute that one comes first which was known first. It needs `lib/sequences.factor`, `lib/sorting.factor`, `lib/vectors.factor`,
! `lib/heaps.factor`, `lib/dlists.factor` and `lib/text.factor` before it.

USING: accessors arrays deques dlists heaps io kernel math math.parser sequences strings ;
IN: tills

! A customer comes at a minute, and takes so many minutes at the till.
TUPLE: customer name comes takes ;

! What happens.
TUPLE: arrival customer ;
TUPLE: leaving customer till ;

! The events to come and how many there were, the tills that are free, the customers who wait, and how long all of them waited.
TUPLE: shop events count free waiting waited ;

: <shop> ( -- shop ) <min-heap> 0 <dlist> <dlist> 0 shop boa ;

:: open-tills ( shop n -- )
    n <iota> [ 1 + shop free>> push-back ] each ;

:: schedule ( event minute shop -- )
    event minute shop count>> 2array shop events>> heap-push
    shop count>> 1 + shop count<< ;

! What is told

: tell ( minute name str -- )
    [ swap number>string 3 32 pad-head write " " write write ] dip print ;

: till-text ( n str -- str ) swap number>string append ;

! What happens

:: serve ( customer till minute shop -- )
    minute customer name>> till " goes to till " till-text tell
    shop waited>> minute + customer comes>> - shop waited<<
    customer till leaving boa minute customer takes>> + shop schedule ;

! The first one who waits goes to the first till that is free, where there are both.
:: assign ( minute shop -- )
    shop waiting>> deque-empty? shop free>> deque-empty? or [
        shop waiting>> pop-front shop free>> pop-front minute shop serve
    ] unless ;

GENERIC: happen ( minute shop event -- )

:: arrive ( minute shop customer -- )
    minute customer name>> " comes" tell
    customer shop waiting>> push-back ;

:: leave ( minute shop customer till -- )
    minute customer name>> till " leaves till " till-text tell
    till shop free>> push-back ;

M: arrival happen [ 2dup ] dip customer>> arrive assign ;

M: leaving happen [ 2dup ] dip [ customer>> ] [ till>> ] bi leave assign ;

: customers ( -- seq )
    {
        { "Ann" 0 5 } { "Ben" 1 2 } { "Cleo" 2 4 } { "Dan" 2 1 } { "Eve" 7 3 }
    } [ first3 customer boa ] map ;

:: day ( n -- )
    <shop> :> shop
    n number>string write n 1 = " till" " tills" ? print
    shop n open-tills
    customers [ dup comes>> [ arrival boa ] dip shop schedule ] each
    shop events>> [| event key | key first shop event happen ] slurp-heap
    "minutes waited: " write shop waited>> number>string print ;

1 day nl
2 day
