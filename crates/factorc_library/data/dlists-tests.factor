! Tests of `lib/dlists.factor`. Each line writes what it leaves, the top of the stack first.

USING: deques dlists kernel math sequences prettyprint ;
IN: dlists-tests

: few ( -- dlist ) <dlist> { 1 2 3 } over push-all-back ;

<dlist> deque-empty? .
<dlist> dlist>sequence .
few dlist>sequence .
<dlist> { 1 2 3 } over push-all-front dlist>sequence .
few [ peek-front . ] [ peek-back . ] [ deque-length . ] tri
<dlist> [ peek-front . ] [ peek-back . ] bi
few dup pop-front . dlist>sequence .
few dup pop-back . dlist>sequence .
few dup pop-front* dup pop-back* dlist>sequence .
few dup pop-front* dup pop-back* dup pop-front . deque-empty? .
few dup pop-back* dup pop-back* dup pop-back . [ peek-front . ] [ peek-back . ] bi
few dup pop-back* dup pop-back* dup pop-back* 9 over push-front 8 over push-back dlist>sequence .
few 0 over push-front 4 over push-back dlist>sequence .
few [ . ] slurp-deque
few dup [ dup 1 = [ 7 pick push-back ] when . ] slurp-deque deque-length .
few dup clear-deque [ deque-empty? . ] [ dlist>sequence . ] bi
0 <dlist> 1000 <iota> [ over push-back ] each [ + ] slurp-deque .
