" Vim syntax file
" Language: definitions and proofs of Rattle

if exists('b:current_syntax')
  finish
endif

" A clause of a contract includes this file.
syn match anttComment /--.*$/ contains=@Spell
syn keyword anttImport use module
syn keyword anttDefine abbrev data mutual pub record unfoldable unfolding where
syn keyword anttTerm else if in let then
syn keyword anttTactic absurd cc elim grind omega rw search simp
syn match anttTerm /λ/
syn match anttType /\<\u[[:alnum:]_'-]*/
syn match anttNumber /\<\d\+\>/
syn match anttOperator /[≡≢≤<⊎×→↔++∷∙*^%=]\|\.\.\|-\@1<!-\ze /
syn match anttHole /?\w*/
syn region anttString start=/"/ skip=/\\./ end=/"/ oneline

hi def link anttComment Comment
hi def link anttImport Include
hi def link anttDefine Keyword
hi def link anttTerm Statement
hi def link anttTactic Function
hi def link anttType Type
hi def link anttNumber Number
hi def link anttOperator Operator
hi def link anttHole Todo
hi def link anttString String

let b:current_syntax = 'antt'
