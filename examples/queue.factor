! A day in a shop with one counter, minute by minute: customers come at random, wait in a queue and are served.
!
! It shows an array as the state of a program, which words read and change by place, a small generator of random numbers, and a queue that
! is a new array after each step.

USING: kernel math sequences arrays io math.parser ;
IN: queue

! Random numbers

CONSTANT: seed { 42 }

: next-seed ( -- n )
    seed first 1103515245 * 12345 + 2147483648 mod dup 0 seed set-nth ;

! A number from 0 up to `n`, which is left out.
: random ( n -- m ) next-seed 65536 /i swap mod ;

! The state of the shop: for each customer who waits the minute in which he came, the minutes that the one at the counter still takes,
! how many were served, how many minutes all of them waited, and how many waited at most.

CONSTANT: shop { { } 0 0 0 0 }

CONSTANT: waiting 0
CONSTANT: left 1
CONSTANT: served 2
CONSTANT: waited 3
CONSTANT: most 4

: get ( place -- x ) shop nth ;

: put ( x place -- ) shop set-nth ;

: add ( n place -- ) [ get + ] keep put ;

! A minute

: arrive ( minute -- )
    waiting get swap suffix dup waiting put
    length most get max most put ;

: maybe-arrive ( minute -- ) 4 random zero? [ arrive ] [ drop ] if ;

: rest ( seq -- seq ) dup length 1 swap rot subseq ;

: begin ( minute queue -- )
    [ first - waited add ] [ rest waiting put ] bi
    1 served add 4 random 1 + left put ;

: maybe-begin ( minute -- )
    waiting get dup empty? [ 2drop ] [ begin ] if ;

: counter ( minute -- )
    left get zero? [ maybe-begin ] [ drop -1 left add ] if ;

: minute ( minute -- ) [ maybe-arrive ] [ counter ] bi ;

! The day

: tell ( str n -- ) [ write ": " write ] dip number>string print ;

: hour ( hour -- )
    60 * 60 <iota> [ over + minute ] each drop ;

: queue-line ( n -- str ) "" swap [ "*" append ] times ;

8 <iota> [
    dup hour
    9 + number>string write "h " write
    waiting get length queue-line print
] each

"served" served get tell
"still waiting" waiting get length tell
"longest queue" most get tell
"minutes waited, tenths of the mean" waited get 10 * served get /i tell
