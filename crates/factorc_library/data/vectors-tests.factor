! Tests of `lib/vectors.factor`. Each line writes what it leaves, the top of the stack first.

USING: accessors arrays kernel math sequences vectors prettyprint ;
IN: vectors-tests
FROM: growable => length nth set-nth first second last empty? each map filter reduce sum >array ;

! Making them

0 <vector> >array .
5 <vector> length .
{ 1 2 } >vector >array .
"né" >vector >array .
7 1vector >array .
{ 1 2 } >vector >vector >array .
0 <vector> vector? .
{ } vector? .
{ 1 } dup >vector [ 5 swap push ] keep drop .

! Growing and shrinking

0 <vector> 10 <iota> [ over push ] each >array .
0 <vector> 1000 <iota> [ over push ] each [ length . ] [ sum . ] [ last . ] tri
{ 1 2 3 } >vector dup pop . >array .
{ 1 2 3 } >vector dup pop* dup pop* dup pop* dup empty? . length .
{ 1 } >vector dup pop drop "a" over push >array .
{ 1 2 } >vector { 3 4 } over push-all >array .
{ 1 2 } >vector dup dup push-all >array .
{ 1 2 } >vector "né" over push-all >array .
{ 1 2 3 4 } >vector 2 over shorten >array .
{ 1 2 } >vector 5 over shorten >array .
{ 1 2 } >vector dup delete-all >array .
100 <vector> underlying>> length .
0 <vector> 1 over push underlying>> length .
2 <vector> 1 over push 2 over push 3 over push underlying>> length .
{ 9 8 } >vector dup pop* underlying>> .

! Places

{ 5 6 7 } >vector [ 1 swap nth . ] [ first . ] [ second . ] tri
{ 5 6 } >vector "x" 0 pick set-nth >array .
{ 5 6 } >vector "x" over set-last >array .
{ 5 6 } >array "x" over set-last .
{ 5 6 } [ 1 swap nth . ] [ length . ] [ last . ] tri
"né" last .

! Loops

{ 1 2 3 } >vector [ . ] each
0 <vector> [ . ] each
{ 1 2 } >vector dup [ over push ] each >array .
{ 1 2 3 } >vector [ sq ] map .
{ 1 2 3 4 } >vector [ even? ] filter .
{ 5 9 2 } >vector 0 [ max ] reduce .
{ 5 9 2 } [ 1 + ] map .
3 <iota> [ . ] each
