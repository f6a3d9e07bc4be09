! A bank whose accounts and payments are tuples.
!
! It shows constructors by `C:`, accessors that read and change slots, two kinds of accounts that share what their parent does, failures
! as values of classes of their own, and `cond`.

USING: kernel math sequences io math.parser combinators accessors ;
IN: accounts

TUPLE: account owner balance ;
TUPLE: savings < account percent ;
TUPLE: checking < account limit ;
C: <savings> savings
C: <checking> checking

TUPLE: bank accounts ;
TUPLE: payment amount from to ;
C: <payment> payment

! What a request comes to.
SINGLETON: done
TUPLE: no-account owner ;
TUPLE: too-little owner available wanted ;
UNION: failure no-account too-little ;

! Accounts

: credit ( n account -- ) [ balance>> + ] keep balance<< ;

! What can be taken from an account. A checking account may be overdrawn up to its limit.
GENERIC: available ( account -- n )
M: account available balance>> ;
M: checking available [ call-next-method ] [ limit>> ] bi + ;

: refuse ( n account -- failure ) [ owner>> ] [ available ] bi rot too-little boa ;

: transfer ( n from to -- outcome )
    {
        { [ over failure? ] [ drop nip ] }
        { [ dup failure? ] [ 2nip ] }
        { [ pick pick available > ] [ drop refuse ] }
        [ pick swap credit [ neg ] dip credit done ]
    } cond ;

! At the end of a year savings bear interest, and who is overdrawn pays a fee.
GENERIC: end-year ( account -- )
M: savings end-year [ [ balance>> ] [ percent>> ] bi * 100 /i ] keep credit ;
M: checking end-year dup balance>> 0 < [ -5 swap credit ] [ drop ] if ;

! The bank

: open ( bank account -- bank ) over accounts>> swap suffix >>accounts ;

: account-of ( owner bank -- account/failure )
    dupd accounts>> [ owner>> = ] with filter
    dup empty? [ drop no-account boa ] [ nip first ] if ;

: pay ( bank payment -- outcome )
    dup amount>> -rot [ from>> ] [ to>> ] bi rot [ account-of ] curry bi@ transfer ;

GENERIC: tell ( outcome -- )
M: done tell drop "done" print ;
M: failure tell owner>> write ": " write ;
M: no-account tell call-next-method "no account" print ;
M: too-little tell
    [ call-next-method ]
    [ wanted>> number>string write " wanted, " write ]
    [ available>> number>string write " available" print ] tri ;

: order ( bank payment -- bank ) over swap pay tell ;

: grade ( n -- str )
    {
        { [ dup 0 < ] [ drop "overdrawn" ] }
        { [ dup 100 < ] [ drop "low" ] }
        [ drop "fair" ]
    } cond ;

: show ( account -- )
    [ owner>> write ": " write ]
    [ balance>> dup number>string write " (" write grade write ")" print ] bi ;

: report ( bank title -- bank ) print dup accounts>> [ show ] each nl ;

bank new { } >>accounts
"ann" 500 3 <savings> open
"bob" 120 200 <checking> open
"eve" 0 2 <savings> open
"In the morning" report

100 "ann" "eve" <payment> order
300 "bob" "ann" <payment> order
300 "bob" "ann" <payment> order
20 "mallory" "eve" <payment> order
20 "eve" "mallory" <payment> order
nl

"In the evening" report
dup accounts>> [ end-year ] each
"After a year" report
accounts>> [ balance>> ] map sum "together: " write number>string print
