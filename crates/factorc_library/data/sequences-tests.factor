! Tests of `lib/sequences.factor`. Each line writes what it leaves, the top of the stack first.

USING: kernel math sequences arrays splitting io math.parser prettyprint ;
IN: sequences-tests

! Places and parts

{ 5 6 7 } third .
{ 5 6 7 } first2 2dup . . 2drop
{ 0 1 2 -1 } [ { 7 8 } bounds-check? ] map .
{ 0 1 2 -1 } [ { 7 8 } ?nth ] map .
"aéb" 2 head .
"aéb" 2 tail .
"aéb" 0 head .
{ 1 2 3 } 3 tail .
3 <iota> rest .
"añ" but-last .
{ 1 2 3 } unclip . .
"b" 97 prefix .
{ } 1 prefix .
"abc" "ab" head? .
"abc" "b" head? .
"a" "ab" head? .
"" "" head? .
"abc" "bc" tail? .
"abc" "abc" tail? .
"abc" "" tail? .
"c" "bc" tail? .
{ 1 2 } { 2 } tail? .
{ 1 2 3 } >array dup 1 swap [ 10 * ] change-nth .
5 { 1 2 3 } >array [ 0 swap [ + ] change-nth ] keep .

! Two sequences, and places

{ "a" "b" } [ number>string write write ] each-index nl
{ } [ 2drop "never" print ] each-index
{ 10 20 30 } [ - ] map-index .
"aé" [ 2 * + ] map-index .
0 { 1 2 3 } { 10 20 } [ * + ] 2each .
{ } { 1 } [ 2drop "never" print ] 2each
{ 1 2 3 } "ab" [ + ] 2map .
{ } { } [ + ] 2map .
100 { 1 2 } { 3 4 } [ pick + + ] 2map . .
1 3 [ 2 * dup ] replicate . .
0 [ 7 ] replicate .

! Searching

{ 1 4 5 6 } [ even? ] find . .
{ 1 3 } [ even? ] find . .
{ } [ even? ] find . .
0 { 1 4 6 } [ [ 1 + ] dip even? ] find . . .
"aéb" [ 127 > ] find . .
{ 1 2 } [ even? ] any? .
{ } [ even? ] any? .
{ f } [ not ] any? .
{ 2 4 } [ even? ] all? .
{ 2 3 4 } [ even? ] all? .
{ } [ even? ] all? .
{ 1 3 } [ even? ] none? .
{ 1 2 } [ even? ] none? .
3 { 1 3 3 } index .
"x" { "a" } index .
233 "aé" index .
1 { } index .
{ 1 } { 2 { 1 } } member? .
2 { } member? .
"banana" "na" subseq-index .
"banana" "nab" subseq-index .
"éàü" "ü" subseq-index .
"a" "ab" subseq-index .
"a" "" subseq-index .
{ 1 2 3 } { 2 3 } subseq-index .

! Counting, selecting, summing

{ "a" "bcd" "" } [ length ] map-sum .
{ } [ length ] map-sum .
10 { 1 2 } [ over * ] map-sum . .
{ 1 2 3 4 6 } [ even? ] count .
{ } [ even? ] count .
{ 1 2 3 4 } [ even? ] reject .
{ 1 2 3 4 5 } [ 3 > ] partition . .
{ } [ 3 > ] partition . .
1 { 1 2 1 3 } remove .
5 { } remove .
{ 2 3 4 } product .
{ } product .
{ 3 9 -1 } maximum .
{ 3 9 -1 } minimum .
{ } [ "empty" ] [ length number>string ] if-empty .
"ab" [ "empty" ] [ length number>string ] if-empty .

! Joining and splitting

{ "a" "é" "c" } ", " join .
{ "a" } ", " join .
{ } ", " join .
{ } { } join .
{ "" "" "" } "-" join .
{ { 1 } { } { 2 3 } } { 0 } join .
{ { 1 } { 2 } } "" join .
5 <iota> [ number>string ] map "" join .
{ "a" "bc" "" "d" } concat .
{ } concat .
{ { 1 2 } { } { 3 } } concat .
{ { 1 } } dup concat dup . swap first eq? .
{ "a" { 1 } } concat .
{ 1 2 3 } [ <iota> ] map-concat .
"a b  c" " " split .
"" " " split .
"," "," split .
"a,b c" ", " split .
"é" "é" split .
{ 1 0 2 3 } { 0 } split .
"key=value=x" "=" split1 . .
"key" "=" split1 . .
"=é" "=" split1 . .

! More places and parts

USING: grouping ;

{ 5 6 7 8 } first3 . . .
"añb" unclip-last . .
"añb" 1 cut . .
{ 1 2 3 } 0 cut . .
{ 1 2 3 } 1 cut* . .
"abc" 1 head* .
"abc" 2 tail* .
"b" "a" prepend .
{ 1 } { 2 } { 3 } 3append .
"b" "(" ")" surround .
"a" "b" ", " glue .
{ 1 2 3 } >array 0 2 pick exchange .
{ 1 2 3 } >array 1 1 pick exchange .
"a" "b" "c" 3array .
1 2 3 4 4array .
1 { 5 6 7 } remove-nth .
0 "añ" remove-nth .
"x" 1 { 5 6 } insert-nth .
"x" 2 { 5 6 } insert-nth .

! More loops

{ 1 2 3 } 10 [ + ] accumulate . .
{ } 10 [ + ] accumulate . .
{ 1 2 3 } { 4 5 6 } 0 [ * + ] 2reduce .
{ 1 2 } { 3 4 } [ < ] 2all? .
{ 1 9 } { 3 4 } [ < ] 2all? .
{ } { 1 } [ < ] 2all? .
{ 1 2 3 } [ "-" write ] [ number>string write ] interleave nl
{ } [ "-" write ] [ number>string write ] interleave nl
100 { 1 2 } [ 1 + ] [ + ] interleave .
3 { 1 3 3 } last-index .
7 { 1 3 3 } last-index .
3 { 3 1 3 } indices .
{ 1 2 } "ab" same-length? .

! Parts of a length

{ 1 2 3 4 5 } 2 group .
"abcdef" 3 group .
{ } 3 group .
{ 1 2 3 4 } 2 clump .
"abc" 3 clump .
"ab" 3 clump .
{ 1 1 1 } all-equal? .
{ 1 2 1 } all-equal? .
{ } all-equal? .
{ 1 2 4 } [ < ] monotonic? .
{ 1 2 2 } [ < ] monotonic? .
{ } [ < ] monotonic? .

! Parts between parts

"a--b----c" "--" split-subseq .
"---" "--" split-subseq .
"" "--" split-subseq .
"ab" "abc" split-subseq .
{ 1 0 0 2 } { 0 0 } split-subseq .
"one fish, two fish" "fish" "cat" replace .
"aaa" "a" "aa" replace .
"é-é" "é" "" replace .
"abc" "x" "y" replace .
{ "a" "b" "c" "d" "e" } "" join .
{ "a" "b" "c" "d" "e" } "·" join .
{ { 1 } { 2 } { 3 } } { } join .
20 <iota> [ number>string ] map "," join .
20 <iota> [ number>string ] map "" join .
20 <iota> [ 1array ] map { } join .
