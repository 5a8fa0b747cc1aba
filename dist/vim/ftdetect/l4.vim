autocmd BufRead,BufNewFile *.l4 setfiletype l4
