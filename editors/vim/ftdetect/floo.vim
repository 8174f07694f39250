autocmd BufRead,BufNewFile *.floo setfiletype floo
