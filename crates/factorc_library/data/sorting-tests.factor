! Tests of `lib/sorting.factor`. Each line writes what it leaves, the top of the stack first.

USING: kernel math math.order sequences arrays sorting io prettyprint ;
IN: sorting-tests

! Comparing

1 2 <=> .
2 2 <=> .
3 2 <=> .
"a" "b" <=> .
"ab" "a" <=> .
"a" "ab" <=> .
"" "" <=> .
"é" "z" <=> .
"Z" "a" <=> .
{ 1 { 2 "b" } } { 1 { 2 "a" } } <=> .
{ 1 2 } 2 <iota> <=> .
1 2 before? .
1 1 before? .
"b" "a" after? .
"a" "a" after? .
1 1 before=? .
2 1 before=? .
1 1 after=? .
"a" "b" after=? .
"abc" "z" [ length ] compare .
{ 1 2 3 } [ 2 >=< ] map .
{ 1 2 3 } [ 2 <=> invert-comparison ] map .

! Sorting

{ } sort .
{ 5 } sort .
{ 2 1 } sort .
{ 3 -1 2 2 10 -5 } sort .
{ 1 2 3 4 5 6 7 } sort .
{ 7 6 5 4 3 2 1 } sort .
{ 1 1 1 } sort .
{ "pear" "fig" "äpfel" "" "apple" "Fig" } sort .
{ { 2 "b" } { 1 "z" } { 2 "a" } } sort .
"bca" sort .
4 <iota> sort .

! What is sorted stays as it was, and the answer is another array.

{ 2 1 } >array dup sort . .
{ 1 2 } >array dup sort eq? .

{ } [ <=> ] sort-with .
{ 3 1 2 } [ >=< ] sort-with .
{ "bb" "a" "dd" "c" "" } [ [ length ] compare ] sort-with .
{ "bb" "a" "dd" "c" "" } [ [ length ] compare ] inv-sort-with .
{ "bb" "a" "dd" "c" "" } [ length ] sort-by .
{ "bb" "a" "dd" "c" "" } [ length ] inv-sort-by .
{ -3 2 -1 3 1 } [ abs ] sort-by .
{ } [ length ] sort-by .
{ { 2 "b" } { 1 "z" } { 2 "a" } } sort-keys .
{ { 2 "b" } { 1 "z" } { 2 "a" } } sort-values .

! The callables may take and change what lies below.

0 { 1 2 } [ [ 1 + ] 2dip <=> ] sort-with . .
10 { 3 1 2 } [ over swap - ] sort-by . .
0 { "bb" "a" } [ [ 1 + ] dip length ] sort-by . .

! A word that is handed a callable sorts by it.

: least ( ..a seq quot: ( ..a elt -- ..a key ) -- ..a elt ) sort-by first ; inline
{ "ccc" "bb" "dddd" } [ length ] least .

! Of 1,000 pairs none stands in front of one that has a smaller key, or the same one and came earlier.

: pairs ( -- seq ) 1000 <iota> [ dup 7919 * 101 mod swap 2array ] map ;

: in-order? ( pair1 pair2 -- ? )
    2dup [ first ] bi@ = [ [ second ] bi@ < ] [ [ first ] bi@ < ] if ;

: all-in-order? ( seq -- ? )
    t { -1 -1 } rot [ 2dup in-order? swap [ nip and ] dip ] each drop ;

pairs all-in-order? .
pairs [ first ] sort-by all-in-order? .
pairs reverse [ second ] sort-by [ first ] sort-by all-in-order? .
pairs [ [ first ] compare ] sort-with all-in-order? .
pairs reverse sort all-in-order? .
pairs reverse [ first ] sort-by all-in-order? .

! There are at most 1,000 comparisons for each doubling.

0 pairs [ [ 1 + ] 2dip [ first ] compare ] sort-with drop 10000 <= .
