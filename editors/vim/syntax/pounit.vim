" Stack code of po (docs/STACK.md). A comment is a whole line; an operation is the first word of its line.
if exists("b:current_syntax")
  finish
endif
syntax case match
syntax match poComment "^\s*//.*$"
syntax match poUnit "^\s*\zs\%(unit\|end\)\>" nextgroup=poName skipwhite
syntax match poOperation "^\s*\zs\%(con\|adl\|adg\|lod\|sto\|add\|sub\|mul\|and\|ior\|xor\|shl\|shr\|sar\|neg\|not\|dup\|pop\|arg\)\>" nextgroup=poName skipwhite
syntax match poControl "^\s*\zs\%(lab\|jmp\|beq\|bne\|blt\|ble\|bgt\|bge\|bltu\|bgeu\|call\|ret\)\>" nextgroup=poName skipwhite
syntax match poName "\<\h\w*\>" contained
syntax match poNumber "\%(^\|\s\)\zs-\?\d\+\ze\%(\s\|$\)"
highlight default link poComment Comment
highlight default link poUnit Structure
highlight default link poOperation Statement
highlight default link poControl Conditional
highlight default link poName Identifier
highlight default link poNumber Number
let b:current_syntax = "pounit"
