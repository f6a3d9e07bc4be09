! Tests of `lib/bignums.factor`. Each line writes what it leaves, the top of the stack first.

USING: bignums kernel math math.order sequences sorting io prettyprint ;
IN: bignums-tests

: big. ( x -- ) bignum>string print ;

: big ( str -- x ) string>bignum ;

! Numbers and texts

{ 0 7 -7 1000000000 -1000000000 999999999999999999 } [ big. ] each
-170141183460469231731687303715884105728 >bignum big.
"00000000000000000012" big big.
"-0" big big.
{ "" "-" "1a" "--1" " 1" "1,000" "0x1" } [ string>bignum ] map .
"123456789012345678901234567890123456789012345678901234567890" big big.
"-100000000000000000000000000000000000000000" big big.
"170141183460469231731687303715884105728" big bignum>integer .
"-170141183460469231731687303715884105728" big bignum>integer .
5 >bignum "5" big = .
0 big-zero? .
1 big-zero? .

! Sums and products

999999999 1 big+ big.
"999999999999999999999999999999999999999999999" big 1 big+ big.
"1000000000000000000000000000000000000000000000" big 1 big- big.
5 8 big- big.
-5 -8 big+ big.
8 -8 big+ big.
-8 8 big+ .
170141183460469231731687303715884105727 dup big+ big.
170141183460469231731687303715884105727 dup big* big.
-1000000000 1000000000 big* big.
-3 0 big* big.
2 200 big^ big.
-10 41 big^ big.
7 0 big^ big.
1 30 <iota> [ 1 + big* ] each big.

! Quotients

17 5 big/mod big. big.
-17 5 big/mod big. big.
17 -5 big/mod big. big.
5 17 big/mod big. big.
10 100 big^ 3 big/mod big. big.
10 40 big^ 10 20 big^ big/i big.
10 40 big^ 1 big- 10 20 big^ big-mod big.
10 36 big^ 10 18 big^ 1 big- big/mod big. big.
10 27 big^ 1 big- 10 18 big^ 1 big- big/mod big. big.
"500000000000000000000000000" big "500000000999999999" big big/mod big. big.

! Order

1 2 big<=> .
-1 -2 big<=> .
-1 1 big<=> .
1 -1 big<=> .
10 50 big^ dup big<=> .
10 50 big^ 10 49 big^ big<=> .
10 50 big^ 10 50 big^ 1 big+ <=> .
10 30 big^ -7 >bignum 3 >bignum 10 20 big^ -1 >bignum { } swap suffix swap suffix swap suffix swap suffix swap suffix sort [ big. ] each
-7 big-neg big. -7 big-abs big. 0 big-neg big.
