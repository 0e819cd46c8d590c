" Descriptions of machines for po (docs/DESCRIPTION.md). A comment is a whole line; behind `=>` stands the template.
if exists("b:current_syntax")
  finish
endif
syntax case match
syntax match poComment "^\s*//.*$"
syntax match poHead "^\s*\zs\%(machine\|frame\|result\|args\|regs\|end\)\>"
syntax match poEntry "^\s*\zsinsn\s.*$" contains=poInsn,poWord,poRegister,poRelation,poOperand,poNumber,poSign,poTemplate
syntax match poInsn "^\s*\zsinsn\>" contained
syntax match poTemplate "=>\s.*$" contained contains=poArrow,poOperand,poEscape
syntax match poArrow "=>" contained
syntax match poSign ":=\|?" contained
syntax keyword poWord if goto call ret clobber cc M neg not contained
syntax keyword poRegister fp rv arg0 arg1 arg2 arg3 contained
syntax keyword poRelation eq ne lt le gt ge ltu geu contained
syntax match poNumber "-\?\<\d\+\>" contained
syntax match poOperand "[%#@&]\d" contained
syntax match poEscape "%%\|##\|@@\|&&" contained
highlight default link poComment Comment
highlight default link poHead Structure
highlight default link poInsn Structure
highlight default link poTemplate String
highlight default link poArrow Operator
highlight default link poSign Operator
highlight default link poWord Statement
highlight default link poRegister Identifier
highlight default link poRelation Conditional
highlight default link poNumber Number
highlight default link poOperand Special
highlight default link poEscape SpecialChar
let b:current_syntax = "podesc"
