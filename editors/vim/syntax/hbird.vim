" The words of hbird.
if exists("b:current_syntax")
  finish
endif

" A keyword of Vim goes before each match, and a later match before an earlier one.
syntax match hbirdName "\<[a-z_]\w*\>"
syntax match hbirdClass "\<[A-Z]\w*\>"
syntax match hbirdMethod "\.\_s*\zs[a-z_]\w*\>"
syntax match hbirdNumber "\<\d\+\>"
syntax match hbirdOperator "++\|->\|==\|[-=<+*]"
" The `?` stands directly behind the word.
syntax match hbirdKeyword "\<type\>?\="

syntax keyword hbirdKeyword class setup script def end if then else while do new not print str
syntax keyword hbirdConstant nil true false self
syntax keyword hbirdType Nil Bool Int Str Any

syntax region hbirdText start=+"+ end=+"+ oneline contains=hbirdEscape
syntax match hbirdEscape +\\["\\nt]+ contained
syntax match hbirdComment "#.*$" contains=@Spell

highlight default link hbirdKeyword Statement
highlight default link hbirdConstant Constant
highlight default link hbirdType Type
highlight default link hbirdClass Type
highlight default link hbirdMethod Function
highlight default link hbirdName Identifier
highlight default link hbirdNumber Number
highlight default link hbirdOperator Operator
highlight default link hbirdText String
highlight default link hbirdEscape SpecialChar
highlight default link hbirdComment Comment

let b:current_syntax = "hbird"
