" Sources of factorc.
autocmd BufRead,BufNewFile *.factor setfiletype factorc
