! A ledger: each line of the input is a name and an amount, and the amounts of each name are summed.
!
! It shows a loop over the lines of the input, which are counted, and what is done with lines that aren't as they should be. Its input here
! is `ledger.in`.

USING: accessors combinators io kernel math math.parser sequences ;
IN: ledger

TUPLE: entry name amount ;
C: <entry> entry

! A line that isn't a name and an amount.
TUPLE: fault text ;
C: <fault> fault

! Lines

: blank? ( n str -- ? ) nth 32 = ;

! The first place from `n` on that has a blank, or the end.
: word-end ( n str -- m )
    [ 2dup length < [ 2dup blank? not ] [ f ] if ] [ [ 1 + ] dip ] while drop ;

! The name runs up to the first blank, and the amount stands behind it.
:: parse ( line -- thing )
    0 line word-end :> end
    {
        { [ end 0 = ] [ line <fault> ] }
        { [ end line length = ] [ line <fault> ] }
        [
            end 1 + line length line subseq string>number
            [ 0 end line subseq swap <entry> ] [ line <fault> ] if*
        ]
    } cond ;

! An empty line says nothing, and one that begins with `#` is a comment.
: skipped? ( line -- ? )
    dup empty? [ drop t ] [ first 35 = ] if ;

! Sums

:: sums-of ( sums name -- found ) sums [ name>> name = ] filter ;

! Adds an entry to the sum of its name. The first entry of a name is its sum.
:: add ( sums entry -- sums )
    sums entry name>> sums-of
    dup empty?
    [ drop sums entry suffix ]
    [ first dup amount>> entry amount>> + >>amount drop sums ] if ;

GENERIC: take ( sums number thing -- sums )
M: entry take nip add ;
M: fault take
    "line " write swap number>string write ": no entry: " write text>> print ;

: take-line ( sums number line -- sums )
    dup skipped? [ 2drop ] [ parse take ] if ;

: read-ledger ( -- sums )
    { } 1 [ readln dup ] [ over [ take-line ] dip 1 + ] while 2drop ;

: tell ( entry -- )
    [ name>> write ": " write ] [ amount>> number>string print ] bi ;

read-ledger
dup [ tell ] each
"all: " write 0 [ amount>> + ] reduce number>string print
