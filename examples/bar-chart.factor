! The lengths of the words of a text, as a table and as a bar chart.
!
! It shows how a text is taken apart with `subseq`, an array that counts, loops over an iota, and `while` with two values that go from
! turn to turn.

USING: kernel math sequences arrays io prettyprint math.parser ;
IN: bar-chart

CONSTANT: text
"it was the best of times it was the worst of times it was the age of wisdom it was the age of foolishness"

! Words of a text

! Whether a character of a word stands in this place of the text.
: in-word? ( n str -- ? )
    2dup length < [ nth 32 = not ] [ 2drop f ] if ;

! The first place from `n` on that is behind a word.
: word-end ( n str -- m )
    [ 2dup in-word? ] [ [ 1 + ] dip ] while drop ;

! Takes the word that begins in place `n`, and goes on behind it.
: next-word ( words n str -- words n str )
    2dup word-end 3dup swap subseq -rot 1 + swap [ nip suffix ] 2dip ;

: words-of ( str -- words )
    { } 0 rot [ 2dup length < ] [ next-word ] while 2drop
    [ empty? not ] filter ;

! Counts

: longest ( words -- n ) [ length ] map 0 [ max ] reduce ;

: count-one ( table n -- ) swap [ nth 1 + ] 2keep set-nth ;

! In place `n` of the table stands how many words have `n` letters.
: lengths ( words -- table )
    dup longest 1 + 0 <array> swap [ dupd length count-one ] each ;

! The chart

: repeated ( str n -- str ) "" swap [ over append ] times nip ;

: right ( str width -- str ) over length - " " swap repeated swap append ;

: print-bar ( n table -- )
    over number>string 3 right write " " write
    nth [ "#" swap repeated write ] [ " " write . ] bi ;

: chart ( table -- )
    dup length <iota>
    [ swap 2dup nth zero? [ nip ] [ [ print-bar ] keep ] if ] each drop ;

text words-of
dup length number>string write " words:" print
dup lengths dup . chart
dup [ length ] map sum swap length /i
"mean length, rounded down: " write .
