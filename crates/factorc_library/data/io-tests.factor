! Tests of `lib/io.factor`, with the lines of `lib/io-tests.in`. Each line writes what it leaves, the top of the stack first.

USING: io kernel math prettyprint sequences ;
IN: io-tests

TUPLE: point x ;
M: point unparse* 2drop "a point" ;
SINGLETON: nothing
M: nothing unparse* 2drop "nothing" ;

! Lines

readln .
readln .
read-lines .
read-lines .
[ print ] each-line

! Texts

-5 unparse .
"a\"b\\c\n\t\ré" unparse print
t unparse . f unparse .
{ } unparse .
{ 1 { "a" } t { { } } } pprint nl
5 <iota> pprint bl 6 pprint nl
5 point boa pprint nl
{ nothing } pprint nl
{ { { { { { { { { { { { { { { { { } } } } } } } } } } } } } } } } } pprint nl
