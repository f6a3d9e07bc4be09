! Words on texts, by the names and effects that Factor has for them. It needs `lib/sequences.factor` before it.
!
! No word of the language makes a string of a code point: `append`, `subseq` and `reverse` make strings of strings, and `write` takes
! strings alone, so no program can write single bytes either. Here strings of one character are parts of texts that are known. Those of tab,
! line feed, carriage return and the characters of ASCII and Latin-1 that one can see are; with `lib/unicode.factor` all others from 1 to
! 65535 and many pictures are; and `add-characters`, which Factor doesn't have, makes those of any text known, as of a line that was read.
! Another code point is thrown. Words that take parts of a given string keep every character.

IN: strings
USING: arrays kernel math math.private sequences ;

<PRIVATE

! The characters from 32 to 126.
CONSTANT: (ascii)
" !\"#$%&'()*+,-./0123456789:;<=>?@ABCDEFGHIJKLMNOPQRSTUVWXYZ[\\]^_`abcdefghijklmnopqrstuvwxyz{|}~"

CONSTANT: (others)
"\t\n\r¡¢£¤¥¦§¨©ª«¬®¯°±²³´µ¶·¸¹º»¼½¾¿ÀÁÂÃÄÅÆÇÈÉÊËÌÍÎÏÐÑÒÓÔÕÖ×ØÙÚÛÜÝÞßàáâãäåæçèéêëìíîïðñòóôõö÷øùúûüýþÿ"

! The string of the one character in this place.
: (nth-string) ( n str -- newstr ) [ dup 1 + ] dip subseq ;

! What is known: of each 256 code points `f` or an array of strings, with `f` for one that isn't known; and behind that of each 256 code
! points `f` or the text of all of them, of which strings are made when one is asked for.
CONSTANT: (known) { f f }

! How many times 256 code points there are.
CONSTANT: (row-count) 4352

! The array in this place of what is known, which is made where there is none.
:: (known-rows) ( n -- rows )
    n (known) nth [ ] [ (row-count) f <array> dup n (known) set-nth ] if* ;

! The strings of the 256 code points that this one is among.
:: (row) ( ch -- row )
    ch -8 shift :> n
    n 0 (known-rows) nth [ ] [ 256 f <array> dup n 0 (known-rows) set-nth ] if* ;

! Makes the string of one character known.
:: (add) ( n str -- )
    n str nth :> ch
    n str (nth-string) ch 255 bitand ch (row) set-nth ;

PRIVATE>

! Makes the characters of the text known: from then on there are strings of each.
: add-characters ( str -- ) dup length <iota> swap [ (add) ] curry each ;

<PRIVATE

! Makes the first characters known, where they aren't yet.
: (begin) ( -- ) 0 (known) nth [ (ascii) add-characters (others) add-characters ] unless ;

! Makes the 256 code points known that this one is among, where there is a text of them, which isn't looked at again.
:: (ask) ( ch -- )
    ch -8 shift :> n
    n 1 (known-rows) nth [ add-characters f n 1 (known-rows) set-nth ] [ ] if* ;

! The string of this one character, or `f`.
:: (string-of) ( ch -- str/f )
    ch 0 < ch 1114111 > or [ f ] [
        (begin) ch 255 bitand ch (row) nth
        [ ] [ ch (ask) ch 255 bitand ch (row) nth ] if*
    ] if ;

! The same of a character of ASCII in few steps, where the first characters are known.
: (fast-string-of) ( ch ascii -- str/f )
    over 128 < pick 0 >= and [ nth ] [ drop (string-of) ] if ;

PRIVATE>

! The string of this one character. A code point that isn't known is thrown.
: 1string ( ch -- str ) dup (string-of) [ nip ] [ throw ] if* ;

! The string of `n` times this character.
: <string> ( n ch -- string ) 1string <array> "" join ;

<PRIVATE

! The string of the characters in the places from `from` up to `to`. Both halves of many are made in the same way.
:: (part>string) ( from to seq ascii -- str )
    to from - 33 < [
        "" from to [
            seq nth dup ascii (fast-string-of) [ nip ] [ throw ] if* append
        ] (each-integer)
    ] [
        from to + 2 /i :> middle
        from middle seq ascii (part>string) middle to seq ascii (part>string) append
    ] if ;

PRIVATE>

! The string of these characters.
:: >string ( seq -- str )
    seq string? [ seq ] [ (begin) 0 seq length seq 0 (row) (part>string) ] if ;

IN: sequences
USING: arrays kernel math strings ;

<PRIVATE

! What is missing at `n` elements, all of them `elt`, of the kind of the sequence.
: (padding) ( seq n elt -- seq padding )
    [ over length - 0 max ] dip pick string? [ <string> ] [ <array> ] if ;

PRIVATE>

! The sequence with `elt` before it, as often as it needs to have `n` elements.
: pad-head ( seq n elt -- padded ) (padding) swap append ;

! The sequence with `elt` behind it, as often as it needs to have `n` elements.
: pad-tail ( seq n elt -- padded ) (padding) append ;

! The sequence without the elements at its front for which the callable doesn't leave `f`.
: trim-head ( ..a seq quot: ( ..a elt -- ..a ? ) -- ..a newseq )
    over [ [ not ] compose find drop ] dip
    over [ swap tail ] [ nip dup length tail ] if ; inline

! The sequence without the elements at its end for which the callable doesn't leave `f`.
: trim-tail ( ..a seq quot: ( ..a elt -- ..a ? ) -- ..a newseq )
    [ reverse ] dip trim-head reverse ; inline

! The sequence without the elements at both ends for which the callable doesn't leave `f`.
: trim ( ..a seq quot: ( ..a elt -- ..a ? ) -- ..a newseq )
    [ trim-head ] keep trim-tail ; inline

IN: splitting
USING: kernel sequences ;

<PRIVATE

! The lines of a text before a line feed, with which a carriage return before it makes one line break.
: (lines-before) ( str -- seq )
    dup "\r" tail? [ but-last ] when "\r" split ;

PRIVATE>

! The lines of a text, which end with a line feed, a carriage return or both of them, carriage return first. The last one may end without.
: split-lines ( seq -- seq' )
    "\n" split [ but-last [ (lines-before) ] map-concat ] [ last "\r" split ] bi append
    dup last empty? [ but-last ] when ;

IN: ascii
USING: kernel math math.private sequences strings strings.private ;

<PRIVATE

: (from-to?) ( n from to -- ? ) pick >= [ >= ] dip and ;

PRIVATE>

! Whether the character is a digit.
: digit? ( ch -- ? ) 48 57 (from-to?) ;

! Whether it is a small letter.
: letter? ( ch -- ? ) 97 122 (from-to?) ;

! Whether it is a capital letter.
: LETTER? ( ch -- ? ) 65 90 (from-to?) ;

! Whether it is a letter.
: Letter? ( ch -- ? ) dup letter? swap LETTER? or ;

! Whether it is a space, a tab, a line feed or a carriage return.
: blank? ( ch -- ? )
    dup 32 = [ drop t ] [ [ 9 = ] [ 10 = ] [ 13 = ] tri or or ] if ;

! The capital letter of a small one; every other character is left as it is.
: ch>upper ( ch -- upper ) dup letter? [ 32 - ] when ;

! The small letter of a capital one; every other character is left as it is.
: ch>lower ( ch -- lower ) dup LETTER? [ 32 + ] when ;

<PRIVATE

! The text from place `from` up to `to` with each character as the callable makes it. Strings of those that aren't known are parts of the text.
:: (map-part) ( from to str ascii quot: ( ch -- ch' ) -- newstr )
    to from - 33 < [
        "" from to [
            dup str nth quot call ascii (fast-string-of) [ nip ] [ str (nth-string) ] if* append
        ] (each-integer)
    ] [
        from to + 2 /i :> middle
        from middle str ascii quot (map-part) :> begin
        middle to str ascii quot (map-part) begin swap append
    ] if ; inline recursive

! The text with each character as the callable makes it.
: (map-text) ( str quot: ( ch -- ch' ) -- newstr )
    [ (begin) 0 over length rot 0 (row) ] dip (map-part) ; inline

PRIVATE>

! The text with capital letters in place of the small ones of ASCII.
: >upper ( str -- upper ) [ ch>upper ] (map-text) ;

! The text with small letters in place of the capital ones of ASCII.
: >lower ( str -- lower ) [ ch>lower ] (map-text) ;
