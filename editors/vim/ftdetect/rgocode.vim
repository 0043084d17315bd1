" Recognises code texts of rgo by their first line, also from `rgo emit < FILE.go | vim -`
autocmd BufRead,StdinReadPost * if getline(1) ==# 'rgo code 1' | set filetype=rgocode | endif
