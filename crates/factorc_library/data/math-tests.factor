! Tests of `lib/math.factor`. Each line writes what it leaves, the top of the stack first.

USING: kernel math math.functions math.order math.parser ranges sequences prettyprint ;
IN: math-tests

! Quotients

17 5 /mod . .
-17 5 /mod . .
17 5 rem .
-17 5 rem .
17 -5 rem .
-17 -5 rem .
10 -5 rem .
-1 -170141183460469231731687303715884105728 rem .
-9 2/ .
{ -3 0 4 } [ sgn ] map .

! Bits and powers of 2

{ 0 1 10 } [ 2^ ] map .
{ 0 1 2 3 } [ 10 swap bit? ] map .
-1 100 bit? .
{ 1 2 3 4 1023 1024 } [ log2 ] map .
170141183460469231731687303715884105727 log2 .
{ -5 0 1 2 3 4 5 1023 } [ next-power-of-2 ] map .
{ -4 0 1 2 3 4 } [ power-of-2? ] map .
0 [ "zero" ] [ 1 + ] if-zero .
3 [ "zero" ] [ 1 + ] if-zero .

! Order

{ 0 1 5 10 11 } [ 1 10 between? ] map .
{ -5 5 15 } [ 1 10 clamp ] map .

! Functions

2 126 ^ .
-2 127 ^ .
3 5 ^ .
-3 3 ^ .
{ 0 1 7 } [ 0 ^ ] map .
48 36 gcd . .
3 7 gcd . .
-4 6 gcd . .
0 0 gcd . .
0 5 gcd nip .
4 6 lcm .
-4 6 lcm .
6 3 divisor? .
7 3 divisor? .
3 7 mod-inv .
10 17 mod-inv .
2 10 1000 ^mod .
7 0 5 ^mod .
7 0 1 ^mod .
-2 3 7 ^mod .
{ 0 1 2 3 4 8 9 15 16 17 99 100 } [ integer-sqrt ] map .
170141183460469231731687303715884105727 integer-sqrt .

! Texts of numbers

255 16 >base .
-255 2 number>base .
0 7 >base .
35 36 >base .
-170141183460469231731687303715884105728 >hex .
8 >oct .
5 >bin .
"-80000000000000000000000000000000" hex> .
"zz" 36 base> .
"FF" hex> .
"17" oct> .
"-101" bin> .
{ "" "-" "1g" " 1" "1_0" "é" "@" "[" "`" "{" "/" ":" } [ hex> ] map .
"2" bin> .

! Ranges

1 5 [a..b] .
5 1 [a..b] .
3 3 [a..b] .
1 5 [a..b) .
5 1 [a..b) .
3 3 [a..b) .
1 5 (a..b] .
5 1 (a..b] .
3 3 (a..b] .
2 [0..b] .
-2 [0..b] .
2 [0..b) .
0 [0..b) .
3 [1..b] .
3 [1..b) .
