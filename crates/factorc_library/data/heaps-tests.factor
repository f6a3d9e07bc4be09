! Tests of `lib/heaps.factor`. Each line writes what it leaves, the top of the stack first.

USING: heaps kernel math sequences vectors prettyprint ;
IN: heaps-tests
FROM: growable => >array ;

: taken ( heap -- keys ) 0 <vector> swap [ nip over push ] slurp-heap >array ;
: pushed ( heap keys -- heap ) [ dup pick heap-push ] each ;

<min-heap> heap-empty? .
<min-heap> { 3 } pushed [ heap-empty? . ] [ heap-size . ] bi
<min-heap> { 5 1 4 2 3 } pushed taken .
<max-heap> { 5 1 4 2 3 } pushed taken .
<min-heap> { } pushed taken .
<min-heap> { 2 2 1 2 1 } pushed taken .
<min-heap> { "pear" "fig" "banana" } pushed taken .
<min-heap> "c" 3 pick heap-push "a" 1 pick heap-push dup heap-peek . . heap-size .
<min-heap> "c" 3 pick heap-push "a" 1 pick heap-push dup heap-pop . . heap-pop . .
<min-heap> { 7 8 } pushed dup heap-pop* heap-peek . .
<max-heap> { { 1 "x" } { 7 "y" } } over heap-push-all heap-pop . .
<min-heap> 500 <iota> [ 7919 * 500 mod ] map pushed taken 500 <iota> >array = .
<max-heap> 500 <iota> [ 7919 * 500 mod ] map pushed taken 500 <iota> reverse = .
<min-heap> 100 <iota> reverse pushed 50 [ dup heap-pop* ] times { -1 200 } pushed taken [ first . ] [ last . ] [ length . ] tri
