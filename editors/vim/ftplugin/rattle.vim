" Vim filetype plugin file
" Language: Rattle, which is Rust with contracts

if exists('b:did_ftplugin')
  finish
endif
let b:did_ftplugin = 1

setlocal comments=:///,://!,:// commentstring=//\ %s
setlocal expandtab shiftwidth=4
" The index that tools/tags writes at the top of the repository.
setlocal tags^=./tags;

let b:undo_ftplugin = 'setlocal comments< commentstring< expandtab< shiftwidth< tags<'
