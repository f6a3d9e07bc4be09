! A calculator of reverse Polish expressions, which are read from strings: `1 2 + 3 *` is 9.
!
! It shows `string>number`, which is `f` for what is no number, a chain of `if`, an array as a stack, and `reduce` over the words of
! a text.

USING: kernel math sequences arrays io prettyprint math.parser ;
IN: calculator

! Words of a text

: in-word? ( n str -- ? )
    2dup length < [ nth 32 = not ] [ 2drop f ] if ;

: word-end ( n str -- m )
    [ 2dup in-word? ] [ [ 1 + ] dip ] while drop ;

: next-word ( words n str -- words n str )
    2dup word-end 3dup swap subseq -rot 1 + swap [ nip suffix ] 2dip ;

: words-of ( str -- words )
    { } 0 rot [ 2dup length < ] [ next-word ] while 2drop
    [ empty? not ] filter ;

! Operators

: power ( x n -- y ) 1 -rot [ [ * ] keep ] times drop ;

: unknown ( token -- * ) " is no number and no operator" append throw ;

: operate ( x y token -- z )
    dup "+" = [ drop + ] [
    dup "-" = [ drop - ] [
    dup "*" = [ drop * ] [
    dup "/" = [ drop /i ] [
    dup "%" = [ drop mod ] [
    dup "^" = [ drop power ] [
    dup "max" = [ drop max ] [ unknown ] if ] if ] if ] if ] if ] if ] if ;

! The stack: an array, whose last element is the top

: without-two ( stack -- stack ) dup length 2 - 0 swap rot subseq ;

: next-to-last ( stack -- x ) dup length 2 - swap nth ;

: take-two ( stack -- stack x y )
    [ without-two ] [ next-to-last ] [ last ] tri ;

: step ( stack token -- stack )
    dup string>number dup
    [ nip suffix ]
    [ drop [ take-two ] dip operate suffix ] if ;

: evaluate ( str -- n )
    words-of { } [ step ] reduce
    dup length 1 = [ first ] [ throw ] if ;

: show ( str -- ) dup write " = " write evaluate . ;

{
    "1 2 + 3 *"
    "100 7 /  100 7 %  +"
    "0xff 1 +"
    "2 10 ^ 1 -"
    "5 1 2 + 4 * + 3 -"
    "3 8 max 2 max"
    "1,000,000 1,000 *"
    "-7 2 /"
}
[ show ] each
