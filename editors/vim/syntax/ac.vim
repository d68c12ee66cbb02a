" The colours of AC.
if exists('b:current_syntax')
  finish
endif

syntax case match
syntax iskeyword a-z,A-Z,48-57,_

syntax keyword acType int void
syntax keyword acItem core channel file
syntax keyword acConditional if else
syntax keyword acRepeat while for
syntax keyword acStatement break continue return do finish async cancel yield
syntax keyword acFunction printf Send Recv Read Write
syntax keyword acConstant OK CANCELLED FAULT

" A colon stands behind a label and nowhere else.
syntax match acLabel /\<\h\w*\ze\s*:/
syntax match acLabel /\%(\<cancel\s\+\)\@64<=\h\w*/

syntax match acNumber /\<\%(0\|[1-9]\d*\)\>/
syntax match acNumberError /\<\%(0\d\|\d\+\h\)\w*/

" No token begins with these bytes.
syntax match acByteError /[^\t\r -~]\|['@#$?.`\\]/

" Of two that match at one place the later one counts: a text that is closed, and a comment before an operator.
syntax match acOperator /[-+*\/%<>&|^!~=]/
syntax match acEscapeError /\\./ contained
syntax match acEscape /\\[nt\\"]/ contained
syntax match acDirective /%[dc%]/ contained
syntax match acTextByteError /[^ -~]/ contained
syntax match acTextError /"\%(\\.\|[^"\\]\)*\\\?$/
syntax match acText /"\%(\\.\|[^"\\]\)*"/ contains=acEscape,acEscapeError,acDirective,acTextByteError
syntax region acComment start=+/\*+ end=+\*/+ contains=@Spell
syntax match acComment +//.*+ contains=@Spell
syntax sync ccomment acComment minlines=50

highlight default link acType Type
highlight default link acItem Structure
highlight default link acConditional Conditional
highlight default link acRepeat Repeat
highlight default link acStatement Statement
highlight default link acFunction Function
highlight default link acConstant Constant
highlight default link acLabel Label
highlight default link acNumber Number
highlight default link acNumberError Error
highlight default link acByteError Error
highlight default link acOperator Operator
highlight default link acEscape SpecialChar
highlight default link acEscapeError Error
highlight default link acDirective SpecialChar
highlight default link acTextByteError Error
highlight default link acTextError Error
highlight default link acText String
highlight default link acComment Comment

let b:current_syntax = 'ac'
