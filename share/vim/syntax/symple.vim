" Highlighting of the scripts of symple.
if exists("b:current_syntax")
  finish
endif

syntax case match

syntax keyword sympleDeclaration enum field group state test update from
syntax keyword sympleType num word int nums words hold
syntax keyword sympleStatement let push keep
syntax keyword sympleConditional if else
syntax keyword sympleOperator and or not is
syntax keyword sympleMark clamp
" A report, in which functions are called; their names are no keywords.
syntax region sympleReport matchgroup=sympleDeclaration start=/\<report\>/ matchgroup=NONE end=/}/
      \ transparent contains=ALLBUT,sympleReport,sympleEscape,sympleEscapeError,sympleTodo
syntax match sympleFunction /\<\%(count\|first\|last\|max\|min\|part\|sum\)\>\ze\_s*(/ contained

syntax match sympleNumber /\<\d\+\>/
" Digits with a letter or `_` after them, and an operator that isn't one.
syntax match sympleError /\<\d\+[A-Za-z_]\w*/
syntax match sympleError /[^][(){},:;=<>+*\/%.A-Za-z0-9_"#[:space:]!-]/
syntax match sympleError /!=\@!/
syntax match sympleError /\.\@<!\.\.\@!/
syntax match sympleSymbol /==\|!=\|<=\|>=\|\.\.\|[-+*\/%<>=]/

" A text stands on one line, with two escapes.
syntax match sympleEscape /\\["\\]/ contained
syntax match sympleEscapeError /\\["\\]\@!/ contained
syntax region sympleText start=/"/ skip=/\\["\\]/ end=/"/ oneline
      \ contains=sympleEscape,sympleEscapeError
syntax match sympleError /"\%([^"\\]\|\\.\)*$/

syntax keyword sympleTodo TODO FIXME XXX contained
syntax match sympleComment /#.*$/ contains=sympleTodo,@Spell

highlight default link sympleDeclaration Keyword
highlight default link sympleType Type
highlight default link sympleStatement Statement
highlight default link sympleConditional Conditional
highlight default link sympleOperator Operator
highlight default link sympleSymbol Operator
highlight default link sympleMark StorageClass
highlight default link sympleFunction Function
highlight default link sympleNumber Number
highlight default link sympleText String
highlight default link sympleEscape SpecialChar
highlight default link sympleComment Comment
highlight default link sympleTodo Todo
highlight default link sympleError Error
highlight default link sympleEscapeError Error

let b:current_syntax = "symple"
