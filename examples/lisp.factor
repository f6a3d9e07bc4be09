! A small Lisp: numbers, lists, and functions that keep the names around them. Each line of the input is a form, and its value is told.
!
! It shows a reader that goes down into lists, a generic word that evaluates values of several classes, tables of names that lead to one
! another, callables out of a table, and vectors that collect. Its input here is `lisp.in`. It needs `lib/sequences.factor`,
! `lib/vectors.factor`, `lib/assocs.factor`, `lib/hashtables.factor` and `lib/io.factor` before it.

USING: accessors arrays assocs combinators hashtables io kernel math math.parser sequences splitting vectors ;
FROM: growable => >array ;
IN: lisp

! Forms: a number is an integer, a list an array, and any other token a name.

TUPLE: name text ;
C: <name> name

! What is read: the tokens, and how many of them are taken.
TUPLE: reader tokens taken ;

: tokens ( str -- seq )
    "(" " ( " replace ")" " ) " replace " " split [ empty? ] reject ;

: <reader> ( str -- reader ) tokens 0 reader boa ;

: peek ( reader -- token/f ) [ taken>> ] [ tokens>> ] bi ?nth ;

: next ( reader -- token/f ) dup peek swap dup taken>> 1 + >>taken drop ;

DEFER: read-form

! The forms up to the closing bracket, or up to the end of the line where there is none.
:: read-list ( reader -- list )
    8 <vector> :> forms
    [ reader peek { ")" f } member? ] [ reader read-form forms push ] until
    reader next drop forms >array ;

: atom ( token -- form ) dup string>number [ nip ] [ <name> ] if* ;

: read-form ( reader -- form )
    dup next dup "(" = [ drop read-list ] [ nip atom ] if ;

! Names stand for values in a scope, and for those of the scope around it where they aren't there.

TUPLE: scope table parent ;

: <scope> ( parent -- scope ) 0 <hashtable> swap scope boa ;

: bind ( value text scope -- ) table>> set-at ;

! What is thrown for a name that stands for nothing.
TUPLE: unbound text ;

: value-of ( text scope -- value )
    {
        { [ dup not ] [ drop unbound boa throw ] }
        { [ 2dup table>> key? ] [ table>> at ] }
        [ parent>> value-of ]
    } cond ;

! Values: those of forms that stand for themselves, and functions.

TUPLE: function parameters body scope ;
C: <function> function

GENERIC: evaluate ( scope form -- value )

GENERIC: apply ( arguments function -- value )

! A function of the language itself takes the array of its arguments.
M: callable apply call( arguments -- value ) ;

:: apply-function ( arguments function -- value )
    function scope>> <scope> :> scope
    function parameters>> arguments [ swap text>> scope bind ] 2each
    scope function body>> evaluate ;

M: function apply apply-function ;

: named? ( form str -- ? ) over name? [ swap text>> = ] [ 2drop f ] if ;

:: evaluate-if ( scope list -- value )
    scope scope list second evaluate list third list last ? evaluate ;

:: evaluate-define ( scope list -- name )
    scope list third evaluate list second text>> scope bind list second ;

:: evaluate-list ( scope list -- value )
    list first :> head
    {
        { [ head "if" named? ] [ scope list evaluate-if ] }
        { [ head "define" named? ] [ scope list evaluate-define ] }
        { [ head "lambda" named? ] [ list second list third scope <function> ] }
        { [ head "quote" named? ] [ list second ] }
        [ list rest [ scope swap evaluate ] map scope head evaluate apply ]
    } cond ;

M: integer evaluate nip ;
M: name evaluate text>> swap value-of ;
M: array evaluate evaluate-list ;

! The names that are there from the beginning.

: globals ( -- scope )
    f <scope>
    {
        { "+" [ first2 + ] }
        { "-" [ first2 - ] }
        { "*" [ first2 * ] }
        { "<" [ first2 < ] }
        { "=" [ first2 = ] }
        { "list" [ ] }
        { "cons" [ first2 swap prefix ] }
        { "car" [ first first ] }
        { "cdr" [ first rest ] }
        { "null?" [ first empty? ] }
    } [ first2 swap pick bind ] each ;

! What is told of a value.

GENERIC: text-of ( value -- str )
M: integer text-of number>string ;
M: name text-of text>> ;
M: object text-of drop "a function" ;
M: t text-of drop "true" ;
M: f text-of drop "false" ;
M: array text-of [ text-of ] map " " join "(" ")" surround ;

: tell ( scope line -- ) <reader> read-form evaluate text-of print ;

globals [ dupd tell ] each-line drop
