! More words that apply callables, by the names and effects that Factor has for them. It needs no other file.
!
! Those whose effects have no row variable are expanded where they are named, so they leave what their callables leave.

IN: kernel
USE: sequences

! One value or several, several callables

! Runs the callable on `x`, `y` and `z`, and puts them on what it leaves.
: 3keep ( x y z quot -- x y z ) [ 3dup ] dip 3dip ; inline

! Runs `p` on `x` and `y`, and then `q` on them.
: 2bi ( x y p q -- ) [ 2keep ] dip call ; inline

! Runs `p` on `x`, `y` and `z`, and then `q` on them.
: 3bi ( x y z p q -- ) [ 3keep ] dip call ; inline

! Runs three callables on `x` and `y`, one after another.
: 2tri ( x y p q r -- ) [ [ 2keep ] dip 2keep ] dip call ; inline

! Runs three callables on `x`, `y` and `z`, one after another.
: 3tri ( x y z p q r -- ) [ [ 3keep ] dip 3keep ] dip call ; inline

! Several values, a callable for each

! Runs `p` on `w` and `x`, and then `q` on `y` and `z`.
: 2bi* ( w x y z p q -- ) [ 2dip ] dip call ; inline

! Runs `p` on `x`, `q` on `y` and `r` on `z`.
: tri* ( x y z p q r -- ) [ [ 2dip ] dip dip ] dip call ; inline

! Several values, one callable

! Runs the callable on `w` and `x`, and then on `y` and `z`.
: 2bi@ ( w x y z quot -- ) dup 2bi* ; inline

! Runs the callable on `x`, on `y` and on `z`.
: tri@ ( x y z quot -- ) dup dup tri* ; inline

! Whether the callable leaves `f` for neither of the two.
: both? ( x y quot -- ? ) bi@ and ; inline

! Whether the callable doesn't leave `f` for one of the two.
: either? ( x y quot -- ? ) bi@ or ; inline

! Conditions

! Runs the callable on the condition where that isn't `f`.
: when* ( ? true -- ) over [ call ] [ 2drop ] if ; inline

! Leaves the condition where it isn't `f`, and otherwise runs the callable.
: unless* ( ? false -- x ) over [ drop ] [ nip call ] if ; inline

! Loops

! As `while`, with what the predicate left on top of what the body works on.
: while* ( ..a pred: ( ..a -- ..b ? ) body: ( ..b ? -- ..a ) -- ..b )
    [ [ dup ] compose ] dip while drop ; inline

! As `until`, and leaves what the predicate left last, which isn't `f`.
: until* ( ..a pred: ( ..a -- ..b ? ) body: ( ..b -- ..a ) -- ..b ? )
    [ [ dup ] compose [ not ] compose ] dip [ drop ] prepose while ; inline

! Runs the body before the first test: `do while` and `do until` run it at least once.
: do ( pred body -- pred body ) dup 2dip ; inline

! Values for callables

! The callable that runs `quot` with `param1` and `param2` below the top value.
: 2with ( param1 param2 obj quot -- obj curry ) with with ; inline

IN: combinators
USING: kernel sequences ;

! Several callables out of an array

! Runs each callable of an array on `x`. Factor's `cleave` takes callables that leave values; here, where an array isn't looked into before
! the program runs, each has to leave none. What leaves values is `bi`, `tri`, `2bi` or `2tri`.
: cleave ( x seq -- ) [ dupd call( x -- ) ] each drop ;

! Runs each callable of an array on `x` and `y`. As `cleave`, it takes callables that leave nothing.
: 2cleave ( x y seq -- ) [ [ 2dup ] dip call( x y -- ) ] each 2drop ;
