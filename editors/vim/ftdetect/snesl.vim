autocmd BufRead,BufNewFile *.snesl setfiletype snesl
