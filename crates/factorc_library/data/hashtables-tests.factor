! Tests of `lib/hashtables.factor`. Each line writes what it leaves, the top of the stack first.

USING: accessors assocs hashtables kernel math math.parser math.statistics sequences prettyprint ;
IN: hashtables-tests

SYMBOL: red
SYMBOL: blue
TUPLE: point x y ;
M: point hashcode* nip [ x>> ] [ y>> ] bi 31 * + ;
TUPLE: plain x ;

: table ( -- hash ) { { "a" 1 } { "b" 2 } } >hashtable ;

! Keys of every kind

0 <hashtable> assoc-size .
table "a" of .
table "é" of .
"b" table at* . .
"c" table at* . .
table 5 "a" pick set-at [ "a" of . ] [ assoc-size . ] bi
0 <hashtable> "x" f pick set-at "y" t pick set-at [ f of . ] [ t of . ] bi
0 <hashtable> "x" red pick set-at "y" blue pick set-at [ red of . ] [ blue of . ] bi
0 <hashtable> "x" { 1 { "a" red } } pick set-at { 1 { "a" red } } swap at .
0 <hashtable> "x" { 1 { "a" red } } pick set-at { 1 { "a" blue } } swap at .
0 <hashtable> "x" -1 pick set-at "y" 170141183460469231731687303715884105727 pick set-at -1 swap at .
0 <hashtable> "x" 3 4 point boa pick set-at 3 4 point boa swap at .
0 <hashtable> "x" 3 plain boa pick set-at "y" 4 plain boa pick set-at 4 plain boa swap at .
0 <hashtable> "x" 5 <iota> pick set-at 5 <iota> swap at .
0 <hashtable> "x" 97 pick set-at "y" "a" pick set-at "z" { 97 } pick set-at assoc-size .
0 <hashtable> "x" "" pick set-at "" swap at .
0 <hashtable> f "a" pick set-at "a" swap at* . .

! Taking away

table "a" over delete-at [ "a" of . ] [ "b" of . ] [ assoc-size . ] tri
table "z" over delete-at assoc-size .
table "a" over delete-at 7 "a" pick set-at [ "a" of . ] [ assoc-size . ] bi
table dup clear-assoc [ "a" of . ] [ assoc-size . ] bi
"a" table delete-at* . .
"z" table delete-at* . .
0 <hashtable> 1000 <iota> [ dup pick set-at ] each 1000 <iota> [ even? ] filter [ over delete-at ] each [ assoc-size . ] [ values sum . ] bi

! Many keys

: many ( n -- hash ) 0 <hashtable> swap <iota> [ [ sq ] keep pick set-at ] each ;

5000 many [ assoc-size . ] [ 4999 of . ] [ 5000 of . ] tri
5000 many [ keys sum . ] [ keys length . ] [ buckets>> length . ] tri
0 <hashtable> 300 <iota> [ 4294967296 * dup pick set-at ] each 299 4294967296 * swap at .
0 <hashtable> 300 <iota> [ number>string 1 swap pick set-at ] each "299" swap at .
0 <hashtable> 50 <iota> [ plain boa dup pick set-at ] each 49 plain boa swap at .
100 <hashtable> buckets>> length .

! What is made of them

table keys length .
table values sum .
table >alist [ second ] map sum .
0 <hashtable> keys .
0 <hashtable> >alist .
0 table [ nip + ] assoc-each .
table dup [ drop over delete-at ] assoc-each assoc-size .
table [ 10 * ] assoc-map [ "a" of . ] [ hashtable? . ] bi
table [ nip even? ] assoc-filter keys .
table [ nip 2 = ] assoc-find . . .
table [ nip 9 = ] assoc-find . . .
table [ nip 9 < ] assoc-all? .
table [ nip 9 < ] assoc-any? .
2 table value-at .
3 table value? .
{ { 1 2 } { 1 3 } } >hashtable 1 of .
table >hashtable "a" of .
"hello" histogram [ 108 of . ] [ 104 of . ] [ 122 of . ] tri

! Changing values

table "a" over [ 10 + ] change-at "a" of .
table "z" over [ 7 or ] change-at "z" of .
table "a" over inc-at "z" over inc-at [ "a" of . ] [ "z" of . ] bi
table 5 "b" pick at+ "b" of .
"a" table [ drop "never" ] cache .
"é" table [ length ] [ cache ] 2keep drop "é" swap at . .
table { { "a" 9 } { "c" 3 } } assoc-union! [ "a" of . ] [ assoc-size . ] bi
"a" table ?at . .
"z" table ?at . .
table assoc-empty? .

! Keys of one code

0 <hashtable> 300 <iota> [ 1073741758 * dup pick set-at ] each 299 1073741758 * over delete-at 1073741758 over at . assoc-size .
1073741758 hashcode 2147483516 hashcode = .
0 <hashtable> { 0 1 2 } [ 1073741758 * "x" swap pick set-at ] each 1073741758 over delete-at [ 0 of . ] [ 1073741758 of . ] [ 2147483516 of . ] tri

! Hash codes

"ab" hashcode "ab" hashcode = .
{ 1 2 } hashcode { 2 1 } hashcode = .
-170141183460469231731687303715884105728 hashcode 0 >= .
t hashcode f hashcode = .
