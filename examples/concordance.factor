! A concordance: for each word of a text the lines in which it stands.
!
! It shows a hash table whose values are vectors, lines that are counted, a sort, and columns. Its input here is `concordance.in`. It needs
! `lib/sequences.factor`, `lib/sorting.factor`, `lib/vectors.factor`, `lib/assocs.factor`, `lib/hashtables.factor`, `lib/text.factor` and
! `lib/io.factor` before it.

USING: ascii assocs hashtables io kernel math math.parser sequences sorting splitting strings vectors ;
FROM: growable => >array empty? last length ;
IN: concordance

! The words of a line, in small letters.
: words-of ( line -- words )
    >lower " .,;:!?-" split [ "" = ] reject ;

! Adds a line to those of the word, where it isn't the last one of them.
:: add ( number word table -- )
    word table [ drop 4 <vector> ] cache :> numbers
    numbers empty? [ f ] [ numbers last ] if
    number = [ number numbers push ] unless ;

:: add-line ( number line table -- )
    line words-of [ number swap table add ] each ;

! The table of all lines of the input, and their number.
:: read-text ( -- table count )
    0 <hashtable> :> table
    0 [ [ 1 + ] dip dupd table add-line ] each-line
    table swap ;

: numbers-text ( numbers -- str )
    >array [ number>string ] map ", " join ;

: tell ( pair -- )
    first2 [ 10 32 pad-tail write ] [ numbers-text print ] bi* ;

! The words that stand in the most lines, as pairs of a word and its lines.
:: most-frequent ( pairs -- pairs )
    pairs 0 [ second length max ] reduce :> most
    pairs [ second length most = ] filter ;

read-text number>string write " lines" print
>alist sort-keys
dup [ tell ] each
"in most lines: " write most-frequent [ first ] map ", " join print
