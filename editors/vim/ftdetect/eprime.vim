" .param and .solution belong to other languages too: only those that begin as this one's texts do.
autocmd BufRead,BufNewFile *.eprime setfiletype eprime
autocmd BufRead *.param,*.solution if getline(1) =~# "^language ESSENCE'" | setfiletype eprime | endif
