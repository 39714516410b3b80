" Highlighting for Refal-0 tables. Copy editors/vim/* to ~/.vim/.
if exists('b:current_syntax')
  finish
endif

syntax case match

" Outside functions a word is a name that is declared, and a ; may follow a function.
syntax match refal0Semicolon /;/
syntax match refal0Declared /\<\a[A-Za-z0-9_-]*/
syntax region refal0Body matchgroup=refal0Bracket start=/{/ end=/}/ fold
  \ contains=refal0Comment,refal0String,refal0Variable,refal0Word,refal0Open,refal0Mark

" In a sentence a word is a variable; one that is none is shown as an error. What comes later here goes before.
syntax match refal0Word /\a[A-Za-z0-9]*/ contained
syntax match refal0Variable /[se][A-Za-z0-9]\+/ contained
syntax match refal0Mark /[=,;:>]/ contained
syntax match refal0Open /</ contained nextgroup=refal0Called,refal0Emission,refal0Predicate,refal0Angles
syntax match refal0Called /\a[A-Za-z0-9_-]*/ contained
syntax match refal0Emission /Emit[A-Za-z0-9_-]*/ contained
syntax match refal0Predicate /Is\%(Digit\|Upper\|Lower\|Letter\|Blank\)[A-Za-z0-9_-]\@!/ contained
syntax match refal0Angles /Dm\%(Add\|Sub\)[A-Za-z0-9_-]\@!/ contained

syntax region refal0String start=/'/ skip=/\\./ end=/'/ contained contains=refal0Escape,refal0Wrong
syntax match refal0Wrong /"\|\\./ contained
syntax match refal0Escape /\\\%(['"\\nt]\|\d\+\|$\)/ contained

syntax region refal0Comment start=+/\*+ end=+\*/+

syntax sync fromstart

highlight default link refal0Declared Function
highlight default link refal0Called Function
highlight default link refal0Emission Keyword
highlight default link refal0Predicate Type
highlight default link refal0Angles Special
highlight default link refal0Variable Identifier
highlight default link refal0Word Error
highlight default link refal0Wrong Error
highlight default link refal0String String
highlight default link refal0Escape SpecialChar
highlight default link refal0Comment Comment
highlight default link refal0Mark Operator
highlight default link refal0Semicolon Operator
highlight default link refal0Open Operator
highlight default link refal0Bracket Delimiter

let b:current_syntax = 'refal0'
