autocmd BufRead,BufNewFile *.scr set filetype=forth83
