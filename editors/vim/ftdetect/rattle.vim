" The sources of rgo: code with its contracts, and definitions and proofs
autocmd BufRead,BufNewFile *.rt set filetype=rattle
autocmd BufRead,BufNewFile *.antt set filetype=antt
