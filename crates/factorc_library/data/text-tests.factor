! Tests of `lib/text.factor`. Each line writes what it leaves, the top of the stack first.

USING: kernel math sequences splitting strings ascii io math.parser prettyprint ;
IN: text-tests

! Strings of characters

{ 32 65 126 34 92 10 9 13 233 255 161 } [ 1string ] map .
32 126 1 + over - <iota> [ + 1string ] with map "" join print
3 42 <string> .
0 42 <string> .
2 233 <string> .
{ 72 105 33 } >string .
{ } >string .
"né" [ ] map >string .
"日本" >string .
"abc" [ 1 + ] map >string .

! Padding

"7" 3 48 pad-head .
"1234" 3 48 pad-head .
"" 2 46 pad-head .
"né" 4 233 pad-head .
"ab" 4 46 pad-tail .
"日本" 3 46 pad-tail .
"ab" 0 46 pad-tail .
{ 1 2 } 4 0 pad-head .
{ 1 2 } 4 "x" pad-tail .
{ 1 20 300 } [ number>string 4 32 pad-head write ] each nl

! Trimming

"  a b \t" [ blank? ] trim .
"  a b \t" [ blank? ] trim-head .
"  a b \t" [ blank? ] trim-tail .
"   " [ blank? ] trim .
"" [ blank? ] trim .
"日本" [ blank? ] trim .
"éaé" [ 127 > ] trim .
{ 0 0 1 0 } [ zero? ] trim .
32 " a " [ over = ] trim . .

! Lines

"one\ntwo\nthree" split-lines .
"one\n" split-lines .
"" split-lines .
"\n" split-lines .
"\n\n" split-lines .
"a\r\nb\rc\nd" split-lines .
"a\r\n" split-lines .
"a\r" split-lines .
"a\r\r\nb" split-lines .
"\r\n\r\n" split-lines .
"\n\r" split-lines .
"é\nü" split-lines .

! Characters of ASCII

"0a9/:" [ digit? ] map .
"azAZ`{é" [ letter? ] map .
"azAZ@[é" [ LETTER? ] map .
"azAZ1é" [ Letter? ] map .
" \t\n\ra" [ blank? ] map .
"aZ1é" [ ch>upper ] map .
"aZ1É" [ ch>lower ] map .
"Größe 日本 xyz" >upper .
"GRÖßE 日本 XYZ" >lower .
"" >upper .

! Characters that a text makes known

"日本" add-characters 26085 1string .
{ 26412 33 26085 } >string .
"𝔸" add-characters 3 120120 <string> .
"7" 3 26085 pad-head .
1000 <iota> [ 26 mod 97 + ] map >string [ length . ] [ 999 swap nth . ] bi
{ 100 32 9 10 13 11 } [ blank? ] map .
"日本 xyz ÿ" >upper .
"the quick brown fox jumps over the lazy dog, again and again and again" [ ] map >string .
