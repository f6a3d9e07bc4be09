! Tests of `lib/random.factor`. Each line writes what it leaves.

USING: arrays kernel math prettyprint random sequences ;
IN: random-tests

: within? ( seq n -- ? ) [ over 0 >= [ < ] [ 2drop f ] if ] curry all? ;

1000 [ 10 random ] replicate 10 within? .
1000 [ 10 random ] replicate 10 <iota> [ over member? ] all? nip .
1 random .
{ 7 } random .
20 [ { 1 2 3 } random ] replicate [ { 1 2 3 } member? ] all? .
100 [ 1237940039285380274899124224 random ] replicate 1237940039285380274899124224 within? .
100 [ 1237940039285380274899124224 random ] replicate [ 1000000000000000000000000 > ] any? .
10 <iota> shuffle 10 <iota> [ over member? ] all? nip .
{ } shuffle .
{ 1 } >array dup randomize eq? .
0 seed-random 5 100 randoms 0 seed-random 5 100 randoms = .
1 seed-random 5 1000000 randoms 2 seed-random 5 1000000 randoms = .
0 10 randoms .
-5 seed-random 3 10 randoms 10 within? .

! Of 60,000 throws of a die each number comes some 10,000 times.

7 seed-random 60000 6 randoms 6 <iota> [ over [ = ] with count 9600 10400 [ over < ] dip rot > and ] all? nip .
