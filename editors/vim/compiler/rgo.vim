" Vim compiler file
" Compiler: rgo, called through rgor, whose messages begin with the file, the line and the column

if exists('current_compiler')
  finish
endif
let current_compiler = 'rgo'

let s:cpo_save = &cpo
set cpo&vim

CompilerSet makeprg=rgor\ --check\ %:S
CompilerSet errorformat=%f:%l:%c:\ %m,%-G%.%#

let &cpo = s:cpo_save
unlet s:cpo_save
