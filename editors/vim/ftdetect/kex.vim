autocmd BufNewFile,BufRead *.kex setfiletype kex
