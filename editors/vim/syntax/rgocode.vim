" Vim syntax file
" Language: code texts of rgo, as docs/CODE_TEXT.md defines them
"
" A malformed line is shown as an error, from the first place that does not match to its end. The order of lines, and the
" order and the size of numbers, are not checked.

if exists('b:current_syntax')
  finish
endif

let s:cpo_save = &cpo
set cpo&vim

" Patterns for one or more of these with commas between them, and for none or more.
function! s:some(pattern)
  return a:pattern . '\%(,' . a:pattern . '\)*'
endfunction
function! s:listed(pattern)
  return '\%(' . s:some(a:pattern) . '\)\?'
endfunction

let s:number = '\%(0\|[1-9]\d*\)'
let s:keywords = 'break case chan const continue default defer else fallthrough for func go goto if import interface'
      \ . ' map package range return select struct switch type var'
let s:name = '\%(\%(' . join(split(s:keywords), '\|') . '\)\>\)\@!\h\w*'
let s:variable = 'v' . s:number
let s:type = '\%(\[\]\|chan\.\)*\%(int\|bool\|\*' . s:name . '\)'
let s:class = '\%(r' . s:number . '\|G\|-\)'
let s:names = '\[' . s:listed('r' . s:number) . '\]'
let s:escape = '\\\%(["\\n]\|x\%(0[0-9b-f]\|1[0-9a-f]\|7f\|[89a-f][0-9a-f]\)\)'
let s:string = '"\%([\x20\x21\x23-\x5b\x5d-\x7e]\|' . s:escape . '\)*"'

" The words of the lines below: the pattern of the text in the place of a word, its colour, and what is inside it.
let s:words = {
      \ 'variable': [s:variable, 'Variable'],
      \ 'optional': ['\%(' . s:variable . '\|-\)', 'Variable'],
      \ 'number': [s:number, 'Number'],
      \ 'int': ['\%(' . s:number . '\|-[1-9]\d*\)', 'Number'],
      \ 'truth': ['\%(true\|false\)', 'Boolean'],
      \ 'operator': ['\%(add\|sub\|mul\|div\|rem\|eq\|ne\|lt\|le\|gt\|ge\)', 'Operator'],
      \ 'struct': [s:name, 'Type'],
      \ 'global': [s:name, 'Global'],
      \ 'function': [s:name, 'Function'],
      \ 'called': [s:name . '(' . s:listed(s:variable) . ')', 'Function', 'Argument'],
      \ 'fields': [s:name . '\%( ' . s:type . '\)*', 'Type'],
      \ 'type': [s:type, 'Type'],
      \ 'class': [s:class, 'Class'],
      \ 'result': ['\%(' . s:type . ' ' . s:class . '\|- -\)', 'Type', 'ResultClass'],
      \ 'pieces': [s:some('\%(' . s:variable . '\|' . s:string . '\)'), 'Variable', 'String'],
      \ 'passes': ['R\[' . s:listed(s:class) . '\]', 'Passes', 'Empty'],
      \ 'protects': ['P' . s:names, 'Protects', 'Empty'],
      \ 'removes': ['-' . s:names, 'Removes', 'Empty'],
      \ }
" Lines by their first word, and instructions by theirs, each with the words that follow.
let s:lines =<< trim END
  struct fields
  global global type
  func function number result
  var type class
  entry removes
END
let s:instructions =<< trim END
  int variable int removes
  bool variable truth removes
  nil variable removes
  copy variable variable removes
  bin variable operator variable variable removes
  neg variable variable removes
  not variable variable removes
  isnil variable variable removes
  len variable variable removes
  load variable variable number removes
  store variable number variable removes
  at variable variable variable removes
  put variable variable variable removes
  new variable struct removes
  slice variable variable removes
  chan variable variable removes
  recv variable variable removes
  send variable variable removes
  close variable removes
  get variable global removes
  set global variable removes
  call optional called passes protects removes
  go called passes removes
  print removes
  print pieces removes
  jump number removes
  branch variable number removes number removes
  return optional
END

" Defines a group for a sequence of words, and returns its name. Anything after the last word is an error.
let s:defined = {}
function! s:group(words)
  let group = 'rgocode_' . join(a:words, '_')
  if has_key(s:defined, group)
    return group
  endif
  let s:defined[group] = 1
  let [pattern, shown; inside] = s:words[a:words[0]]
  " The blank before a word is not coloured.
  let item = '/ ' . pattern . (len(a:words) > 1 ? ' \@=' : '') . '/hs=s+1 contained'
  let item .= len(a:words) > 1 ? ' nextgroup=' . s:group(a:words[1:]) : ''
  let item .= empty(inside) ? '' : ' contains=rgocode' . inside[0]
  execute 'syn match' group item
  execute 'hi def link' group 'rgocode' . shown
  return group
endfunction

" The first words of these lines, each with the groups that may follow it.
function! s:begun(forms)
  let found = {}
  for [word; words] in map(copy(a:forms), 'split(v:val)')
    let found[word] = get(found, word, []) + [s:group(words)]
  endfor
  return items(found)
endfunction

syn case match
" At each place, Vim takes the last of these items that matches there.
syn match rgocodeError /.\+/
syn match rgocodeHead /\%^rgo code 1$/
syn match rgocodeWord /^end$/
for [s:word, s:groups] in s:begun(s:lines)
  execute 'syn match rgocodeWord /^' . s:word . ' \@=/ nextgroup=' . join(s:groups, ',')
endfor
execute 'syn match rgocodeIndex /^' . s:number . ' \@=/ nextgroup=rgocodePlace'
execute 'syn match rgocodePlace / @' . s:number . ' \@=/hs=s+1 contained nextgroup=rgocodeCreates'
execute 'syn match rgocodeCreates / +' . s:names . ' \@=/hs=s+1 contained contains=rgocodeEmpty'
      \ 'nextgroup=rgocodeInstruction'
for [s:word, s:groups] in s:begun(s:instructions)
  execute 'syn match rgocodeInstruction / ' . s:word . ' \@=/hs=s+1 contained nextgroup=' . join(s:groups, ',')
endfor
syn match rgocodeArgument /[(,]\@1<=v\d\+/ contained
syn match rgocodeResultClass / [rG-]\d*$/hs=s+1 contained
syn match rgocodeEmpty /.\[\]/ contained
execute 'syn match rgocodeString /' . s:string . '/ contained contains=rgocodeEscape'
execute 'syn match rgocodeEscape /' . s:escape . '/ contained'

hi def link rgocodeError Error
hi def link rgocodeHead PreProc
hi def link rgocodeWord Keyword
hi def link rgocodeIndex LineNr
hi def link rgocodePlace Comment
hi def link rgocodeInstruction Statement
hi def link rgocodeVariable Identifier
hi def link rgocodeArgument Identifier
hi def link rgocodeNumber Number
hi def link rgocodeBoolean Boolean
hi def link rgocodeOperator Operator
hi def link rgocodeType Type
hi def link rgocodeGlobal Constant
hi def link rgocodeFunction Function
hi def link rgocodeClass Special
hi def link rgocodeResultClass Special
hi def link rgocodeString String
hi def link rgocodeEscape SpecialChar
hi def link rgocodeCreates DiffAdd
hi def link rgocodePasses Special
hi def link rgocodeProtects DiffChange
hi def link rgocodeRemoves DiffDelete
hi def link rgocodeEmpty Comment

let b:current_syntax = 'rgocode'

let &cpo = s:cpo_save
unlet s:cpo_save
