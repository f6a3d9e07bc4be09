! A text formatter: it breaks a text into lines of a given width, and prints them at the left, at the right and centered.
!
! It shows `each` with two values below the element, one expanded word that takes a quotation, and strings that grow by `append`.

USING: kernel math sequences arrays io math.parser ;
IN: wrap

CONSTANT: text
"A source is a list of words and literals. A literal goes onto the stack, be it a number or a quotation in brackets; a word takes its inputs from there and leaves its outputs."

! Words of a text

: in-word? ( n str -- ? )
    2dup length < [ nth 32 = not ] [ 2drop f ] if ;

: word-end ( n str -- m )
    [ 2dup in-word? ] [ [ 1 + ] dip ] while drop ;

: next-word ( words n str -- words n str )
    2dup word-end 3dup swap subseq -rot 1 + swap [ nip suffix ] 2dip ;

: words-of ( str -- words )
    { } 0 rot [ 2dup length < ] [ next-word ] while 2drop
    [ empty? not ] filter ;

! Lines

: fits? ( line word width -- ? ) [ [ length ] bi@ + 1 + ] dip <= ;

: join ( line word -- line )
    over empty? [ nip ] [ [ " " append ] dip append ] if ;

! Puts a word behind the line, or ends the line and begins the next one with the word.
: add-word ( lines line word width -- lines line )
    2over rot fits? [ join ] [ [ suffix ] dip ] if ;

: wrap ( str width -- lines )
    [ add-word ] curry [ words-of { } "" rot ] dip each suffix ;

! Places in a line

: spaces ( n -- str ) "" swap [ " " append ] times ;

: left ( line width -- line ) over length - spaces append ;

: right ( line width -- line ) over length - spaces swap append ;

: centered ( line width -- line )
    2dup swap length - 2 /i spaces swap [ swap append ] dip left ;

! Prints the text in a frame, each line as the quotation places it.
: frame ( str width quot -- )
    [ [ wrap ] keep ] dip curry [ "| " write call write " |" print ] curry each ; inline

: rule ( width -- ) "+-" write [ "-" write ] times "-+" print ;

28 rule text 28 [ left ] frame 28 rule nl
40 rule text 40 [ right ] frame 40 rule nl
34 rule text 34 [ centered ] frame 34 rule nl

"lines at each width:" write
{ 20 30 40 60 80 200 } [ " " write text swap wrap length number>string write ] each nl
