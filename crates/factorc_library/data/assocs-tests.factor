! Tests of `lib/assocs.factor`. Each line writes what it leaves, the top of the stack first.

USING: kernel math sequences arrays assocs io prettyprint ;
IN: assocs-tests

CONSTANT: ages { { "ann" 30 } { "bob" f } { "é" 7 } { "ann" 99 } }

"ann" ages at* . .
"bob" ages at* . .
"eve" ages at* . .
"x" { } at* . .
"é" ages at .
"eve" ages at .
ages "ann" of .
"bob" ages key? .
"eve" ages key? .
7 ages value-at .
f ages value-at .
8 ages value-at .
99 ages value? .
8 ages value? .
{ 1 } { { 1 "no" } { { 1 } "yes" } } at .

8 "é" ages set-at ages .
31 "ann" ages set-at ages .

: table ( -- assoc ) { { 1 "a" } { 2 "b" } } [ >array ] map ;

"x" 2 table put-at .
"c" 3 table put-at .
"c" 3 { } put-at .
table dup [ "x" 1 ] dip put-at drop .

table assoc-size .
table keys .
table values .
{ } keys .
{ 1 2 3 } "ab" zip .
{ } { 1 } zip .
"ab" zip-index .
table unzip . .
table [ . . ] assoc-each
0 { { 1 10 } { 2 20 } } [ * + ] assoc-each .
{ } [ 2drop "never" print ] assoc-each
table [ swap ] assoc-map .
table [ 0 2array [ 1 + ] dip ] assoc-map .
100 { { 1 10 } { 2 20 } } [ pick + ] assoc-map . .
{ { 1 10 } { 2 2 } { 3 30 } } [ < ] assoc-filter .
{ } [ < ] assoc-filter .

! More words

: counts ( -- assoc ) { { "a" 1 } { "b" 2 } } [ >array ] map ;

counts "a" over [ 10 + ] change-at .
counts "b" over inc-at .
counts 5 "b" pick at+ .
"a" counts [ drop "never" ] cache .
"a" counts ?at . .
"z" counts ?at . .
{ } assoc-empty? .
counts assoc-empty? .
counts >alist .
counts { { "b" 9 } } assoc-union! .
counts [ nip even? ] assoc-find . . .
counts [ nip 9 = ] assoc-find . . .
counts [ nip 0 > ] assoc-all? .
counts [ nip 1 > ] assoc-all? .
counts [ nip 1 > ] assoc-any? .
