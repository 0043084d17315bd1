" Vim syntax file
" Language: Rattle, which is Rust with contracts

if exists('b:current_syntax')
  finish
endif

" Everything except the clauses is shown as Rust.
runtime! syntax/rust.vim
unlet! b:current_syntax
syn include @rattleLogic syntax/antt.vim
unlet! b:current_syntax

syn match rattleClause /^\s*\%(requires\|ensures\)\*\?\%( \w\+\)\?\ze {/ nextgroup=rattleTerm skipwhite
syn match rattleGhost /^\s*\%(pub \)\?ghost \%(use \)\@!\w\+\%( =\|:\)\ze {/ nextgroup=rattleTerm skipwhite
" The braces of a term inside a clause do not end the clause.
syn region rattleTerm matchgroup=Delimiter start=/{/ end=/}/ contained contains=@rattleLogic,rattleTerm
syn region rattleGhostUse matchgroup=Include start=/^\s*ghost use / end=/;/ contains=@rattleLogic

hi def link rattleClause Keyword
hi def link rattleGhost Keyword

let b:current_syntax = 'rattle'
