" Vim syntax file. Language: Floo 0.5. What is marked as an error is a fault of the token rules.
if exists("b:current_syntax")
  finish
endif

" the bytes of names
syn iskeyword 33,36-46,48-90,92,94-122,124,126

syn keyword flooStack dup exch pop index copy roll mark
syn keyword flooArithmetic add sub mul idiv mod abs neg bitshift ones lowpeg highpeg
syn keyword flooLogic not and or xor eq ne lt le gt ge
syn keyword flooDictionary def load bind
syn keyword flooControl exec if ifelse loop repeat for exit continue stop
syn keyword flooObject array length get put getinterval putinterval aload astore string readonly
syn keyword flooConversion cvs cvx cvlit cvn
syn keyword flooOutput echo echostack print
syn keyword flooException onerror errorname command
syn keyword flooConstant true false null
syn match flooBracket "[[\]]"
syn match flooBrace "[{}]"

" a run of name bytes; one that begins as a number must be one. Of two that begin at one byte the later rule holds
syn match flooName "[!$-.0-Z\\^-z|~]\+"
syn match flooBadNumber "-\?\d[!$-.0-Z\\^-z|~]*"
syn match flooNumber "\%(-\?\d\+\|0x\x\+\)[!$-.0-Z\\^-z|~]\@!"
syn match flooBadSlash "/"
syn match flooLiteral "/\%(-\?\d\)\@![!$-.0-Z\\^-z|~]\+"

syn match flooBadEscape "\\." contained
syn match flooEscape +\\\%(n\|"\|[0-3]\o\o\|$\)+ contained
" it ends with its line, unless a backslash is the last byte there
syn region flooString start=+"+ skip=+\\.+ end=+"+ end=+\\\@1<!$+ contains=flooEscape,flooBadEscape

syn match flooComment "#.*$"
syn match flooHeader "\%^#FLOO.*$"

hi def link flooStack Function
hi def link flooArithmetic Operator
hi def link flooLogic Operator
hi def link flooDictionary Define
hi def link flooControl Statement
hi def link flooObject Function
hi def link flooConversion Function
hi def link flooOutput Function
hi def link flooException Exception
hi def link flooConstant Constant
hi def link flooBracket Delimiter
hi def link flooBrace Delimiter
hi def link flooNumber Number
hi def link flooLiteral Identifier
hi def link flooString String
hi def link flooEscape SpecialChar
hi def link flooComment Comment
hi def link flooHeader PreProc
hi def link flooBadNumber Error
hi def link flooBadSlash Error
hi def link flooBadEscape Error

let b:current_syntax = "floo"
