autocmd BufRead,BufNewFile *.chanl setfiletype chanl
