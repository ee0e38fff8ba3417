" Vim syntax of geost problems and layouts. Copy it to ~/.vim/syntax/geost.vim, and put
"   autocmd BufNewFile,BufRead *.geost,*.plan setfiletype geost
" into ~/.vimrc.
if exists("b:current_syntax")
  finish
endif

syntax case match

syntax match geostComment "#.*$" contains=@Spell
syntax match geostNumber "\<\d\+\>"
syntax match geostName "\<[A-Za-z_][A-Za-z0-9_]*\>"
syntax match geostField "\.\@<!\.[A-Za-z_][A-Za-z0-9_]*"
syntax match geostCall "[@$]\s*[A-Za-z_][A-Za-z0-9_]*"
syntax match geostMark "\.\.\|<=\|>=\|!=\|[.,:;()\[\]+\-*/<>=]"

syntax keyword geostStatement geost dims shape object order sides macro rule end layout token qed
syntax keyword geostPart box size as at with means is in of objects boxes
syntax keyword geostRule apart within
syntax keyword geostQuantifier forall exists atleast atmost
syntax keyword geostLogic not and or implies iff
syntax keyword geostArithmetic div mod min max
syntax keyword geostConstant true false low high absent
syntax keyword geostKind int

highlight default link geostComment Comment
highlight default link geostNumber Number
highlight default link geostName Identifier
highlight default link geostField Special
highlight default link geostCall Function
highlight default link geostMark Delimiter
highlight default link geostStatement Statement
highlight default link geostPart Keyword
highlight default link geostRule Type
highlight default link geostQuantifier Repeat
highlight default link geostLogic Operator
highlight default link geostArithmetic Operator
highlight default link geostConstant Constant
highlight default link geostKind Type

let b:current_syntax = "geost"
