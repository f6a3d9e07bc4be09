! A robot on a grid, which obeys a list of commands.
!
! It shows words as values. A table has a name and a word in each row, and `execute( robot n -- robot )` runs the word that stands in the
! row of a command. What is in the table isn't known to the check, so each word is tested for its effect before it runs. `for-each` is
! inline and is handed a word that is known, so `execute` is enough there.

USING: accessors arrays io kernel math math.parser sequences ;
IN: commands

! The robot

TUPLE: robot x y heading marks ;

: <robot> ( -- robot ) 0 0 0 { } robot boa ;

! What a step adds, for north, east, south and west.
CONSTANT: steps { { 0 1 } { 1 0 } { 0 -1 } { -1 0 } }
CONSTANT: names { "north" "east" "south" "west" }

! Commands

:: forward ( robot n -- robot )
    robot heading>> steps nth :> step
    robot step first n * robot x>> + >>x
    step second n * robot y>> + >>y ;

: back ( robot n -- robot ) neg forward ;

: right ( robot n -- robot ) over heading>> + 4 mod 4 + 4 mod >>heading ;

: left ( robot n -- robot ) neg right ;

: mark ( robot n -- robot )
    over [ x>> ] [ y>> ] bi 2array 2array over marks>> swap suffix >>marks ;

:: square ( robot n -- robot ) robot 4 [ n forward 1 right ] times ;

DEFER: spiral

CONSTANT: commands {
    { "forward" forward }
    { "back" back }
    { "left" left }
    { "right" right }
    { "mark" mark }
    { "square" square }
    { "spiral" spiral }
}

: unknown ( name -- * ) " is no command" append throw ;

! The word in the row of this name.
: command ( name -- word )
    commands over '[ first _ = ] filter
    dup empty? [ drop unknown ] [ nip first second ] if ;

: obey ( robot line -- robot )
    [ second ] [ first ] bi command execute( robot n -- robot ) ;

: obey-all ( robot lines -- robot ) [ obey ] each ;

! A command that is a list of commands.
:: spiral ( robot n -- robot )
    robot n [| so-far k |
        so-far k 1 + forward { { "right" 1 } { "mark" 7 } } obey-all
    ] swap <iota> swap each ;

! Reports

: show-number ( n -- ) number>string write ;

: show-pair ( pair -- )
    [ first show-number ] [ "," write second show-number ] bi ;

: show-place ( robot -- )
    "at " write [ x>> ] [ y>> ] bi 2array show-pair ;

: show-heading ( robot -- ) " to the " write heading>> names nth write ;

: show-marks ( robot -- )
    marks>> [ " " write [ first show-number ] [ ":" write second show-pair ] bi ] each ;

! What these words do with a robot, one after another.
: all-of ( robot words -- ) [ execute( robot -- ) ] with each ;

: show ( robot -- ) { show-place show-heading show-marks } all-of nl ;

! What a word does with each element.
: for-each ( seq word -- ) '[ _ execute ] each ; inline

: drive ( lines -- ) <robot> swap obey-all show ;

{
    { { "forward" 3 } { "right" 1 } { "forward" 2 } { "mark" 1 } }
    { { "left" 1 } { "back" 5 } { "mark" 1 } { "square" 2 } { "mark" 2 } }
    { { "spiral" 5 } { "right" 6 } }
    { }
} \ drive for-each
