! two tokens and a comment, a string and four tokens more
: greeting
"hello, \"world\"" ! 1 2 3
( -- )
;
