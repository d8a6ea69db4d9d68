autocmd BufRead,BufNewFile *.hume setfiletype hume
