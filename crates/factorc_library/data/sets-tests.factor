! Tests of `lib/sets.factor`. Each line writes what it leaves, the top of the stack first.

USING: kernel math sequences sets prettyprint ;
IN: sets-tests

: few ( -- hash-set ) { 3 4 3 } >hash-set ;

! Hash sets

few cardinality .
3 few in? .
5 few in? .
few 5 over adjoin 5 over adjoin cardinality .
few 3 over delete 9 over delete members .
few dup clear-set cardinality .
few dup 3 swap ?adjoin . 8 swap ?adjoin .
0 <hash-set> members .
few >hash-set dup few set= . hash-set? .
few dup >hash-set 5 swap adjoin cardinality .

! Sequences and hash sets

{ 1 2 2 3 1 } members .
"hello" cardinality .
2 { 1 2 } in? .
{ 1 2 2 } { 2 3 } union .
{ 1 2 2 3 } { 2 3 4 } intersect .
{ 1 2 3 1 } { 2 4 } diff .
{ } { } union .
few { 4 } intersect members .
few { 4 } diff hash-set? .
{ 4 5 } few diff .
few { 9 } union cardinality .
{ 1 2 } { 2 3 } intersects? .
{ 1 2 } { 3 } intersects? .
{ 1 2 1 } { 2 1 3 } subset? .
{ 1 4 } few subset? .
{ } few subset? .
{ 1 2 } { 2 1 1 } set= .
{ 1 2 } { 2 } set= .
{ 1 2 1 3 2 1 } duplicates .
{ 1 2 } all-unique? .
{ "a" "b" "a" } all-unique? .
