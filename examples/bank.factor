! A bank. An account is an array of its owner and its balance, and the bank is an array of accounts.
!
! It shows arrays that are changed in their places, words that take what they work on by `keep`, `2dup` and `pick`, a search with
! `filter`, and a sum over all.

USING: kernel math sequences arrays io math.parser ;
IN: bank

! Accounts

: <account> ( owner balance -- account ) 2array ;

: owner ( account -- str ) first ;

: balance ( account -- n ) second ;

: set-balance ( n account -- ) 1 swap set-nth ;

: deposit ( n account -- ) [ balance + ] keep set-balance ;

: can-pay? ( n account -- ? ) balance <= ;

! What an account can't pay is told, and nothing is changed.
: refuse ( n account -- )
    owner write " can't pay " write number>string print ;

: withdraw ( n account -- )
    2dup can-pay? [ [ neg ] dip deposit ] [ refuse ] if ;

: transfer ( n from to -- )
    pick pick can-pay?
    [ pick swap deposit withdraw ]
    [ drop refuse ] if ;

: add-interest ( percent account -- ) [ balance * 100 /i ] keep deposit ;

: show ( account -- )
    [ owner write ": " write ] [ balance number>string print ] bi ;

! The bank

CONSTANT: accounts { { "ann" 500 } { "bob" 120 } { "eve" 0 } }

! The account of this owner, or `f`.
: account-of ( owner -- account/f )
    accounts [ owner = ] with filter
    dup empty? [ drop f ] [ first ] if ;

! The account of an owner who has one.
: account ( owner -- account )
    dup account-of [ nip ] [ " has no account" append throw ] if* ;

: total ( -- n ) accounts [ balance ] map sum ;

: report ( title -- )
    print accounts [ show ] each
    "total: " write total number>string print nl ;

"In the morning" report

75 "eve" account deposit
100 "ann" account "bob" account transfer
300 "bob" account withdraw
20 "bob" account withdraw
1000 "eve" account "ann" account transfer
"In the evening" report

5 accounts [ add-interest ] with each
"After a year" report

"mallory" account-of [ show ] [ "mallory has no account" print ] if*

! The richest of them: the account that has more than each one before it.
: richer ( account account -- account )
    2dup [ balance ] bi@ >= [ drop ] [ nip ] if ;

"the richest is " write accounts dup first [ richer ] reduce owner print
