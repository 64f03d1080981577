" Vim itself takes .stp for stored procedures.
autocmd BufRead,BufNewFile *.stp set filetype=stapl
