! Tests of `lib/unicode.factor`. Each line writes what it leaves.

USING: io kernel math prettyprint sequences strings ;
IN: unicode-tests

{ 26085 26412 9731 969 128512 } >string print
{ 1 27 127 159 55295 57344 65533 65535 127488 130047 } [ 1string first ] map .
{ 2 3 4 } [ 1string length ] map .
0 65535 <iota> [ 1 + dup 55296 >= over 57343 <= and [ drop 1 ] [ dup 1string first = [ 0 ] [ 1 ] if ] if + ] each .
"né" [ ] map >string .
9 1string . 10 1string . 34 1string . 92 1string .
