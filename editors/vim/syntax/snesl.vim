" Streaming NESL. Of items that match at one place Vim takes a keyword, and else the one that stands last here.
if exists("b:current_syntax")
  finish
endif

syntax iskeyword a-z,A-Z,48-57,_
syntax sync fromstart

syntax keyword sneslControl let in if then else
syntax keyword sneslDeclaration input function dialect
syntax keyword sneslType int bool
syntax keyword sneslTruth true false
syntax keyword sneslBuiltin iota scan_add reduce_add reduce_max reduce_and reduce_or length concat part the tab seq fst snd
syntax keyword sneslOperator not and or

" A byte at which none of those below begins is a bad one.
syntax match sneslBadByte "[^ \t\r]"
syntax match sneslNumber "\d\+"
syntax match sneslName "\a\w*"
syntax match sneslFunction "\a\w*\ze\s*("
syntax match sneslSign "\V(\|)\|{\|}\|[\|]\|:\|;\|,\||\|="
syntax match sneslOperator "\V==\|<=\|>=\|++\|<\|>\|+\|-\|*\|/\|%\|!"

" The input text, from the line `---` to the end.
syntax match sneslInputNumber "-\?\d\+" contained
syntax match sneslInputSign "\V=\|;\|,\|(\|)\|[\|]\|{\|}" contained
syntax region sneslInputText matchgroup=sneslSeparator start="^---\r\?$" end="\%$"
      \ contains=sneslBadByte,sneslName,sneslTruth,sneslInputNumber,sneslInputSign

highlight default link sneslControl Conditional
highlight default link sneslDeclaration Keyword
highlight default link sneslType Type
highlight default link sneslTruth Boolean
highlight default link sneslBuiltin Function
highlight default link sneslFunction Identifier
highlight default link sneslOperator Operator
highlight default link sneslSign Delimiter
highlight default link sneslNumber Number
highlight default link sneslBadByte Error
highlight default link sneslInputNumber Number
highlight default link sneslInputSign Delimiter
highlight default link sneslSeparator PreProc

let b:current_syntax = "snesl"
