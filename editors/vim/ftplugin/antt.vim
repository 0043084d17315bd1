" Vim filetype plugin file
" Language: definitions and proofs of Rattle

if exists('b:did_ftplugin')
  finish
endif
let b:did_ftplugin = 1

" Names may contain hyphens and primes, so that CTRL-] jumps from the whole name.
setlocal iskeyword=@,48-57,_,-,39,192-255
setlocal comments=:-- commentstring=--\ %s
setlocal expandtab shiftwidth=2
" The index that tools/tags writes at the top of the repository.
setlocal tags^=./tags;

let b:undo_ftplugin = 'setlocal iskeyword< comments< commentstring< expandtab< shiftwidth< tags<'
