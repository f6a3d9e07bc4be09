" Vim compiler file for factorc: `:make` runs factorc_explain on the file.

if exists("current_compiler")
    finish
endif
let current_compiler = "factorc"

CompilerSet makeprg=factorc_explain\ %:S
CompilerSet errorformat=%f:%l:%c:\ %m,%-G%.%#
