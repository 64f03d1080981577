" Vim syntax file
" Language: STAPL (JEDEC JESD71), in the profile of Zanutero
if exists("b:current_syntax")
  finish
endif

syntax case ignore
syntax iskeyword @,48-57,_
syntax sync minlines=1000

" The reserved words. Those that are left out are refused in each program.
syntax match staplBlock "\v<({{Outer Inner}})\k@!"
syntax match staplStatement "\v<({{If Simple Port}})\k@!"
syntax match staplPart "\v<({{Join}})\k@!"
syntax match staplFunction "\v<({{Function}})\k@!"
syntax match staplState "\v<({{State}})\k@!"
syntax match staplLeftOut "\v<({{LeftOutStatement LeftOutWord}})\k@!"

syntax match staplLabel "\v<\a\w*\ze\_s*:"
syntax match staplNumber "\v<\d+(e\d+)?>"
syntax match staplNumber "\v(<CRC\s+)@<=\x{4}>"
syntax match staplOperator "[-+*/%&|^~<>!=]"
" White space and comments may stand before each digit of a literal.
syntax region staplLiteral start="#" end="[^01' \t]"me=s-1 contains=staplComment
syntax region staplLiteral start="\$" end="[^0-9A-Fa-f' \t]"me=s-1 contains=staplComment
syntax region staplString start=+"+ end=+"+ oneline
syntax match staplComment "'.*"

highlight default link staplBlock Structure
highlight default link staplStatement Statement
highlight default link staplPart Keyword
highlight default link staplFunction Function
highlight default link staplState Constant
highlight default link staplLeftOut Error
highlight default link staplLabel Label
highlight default link staplNumber Number
highlight default link staplOperator Operator
highlight default link staplLiteral Number
highlight default link staplString String
highlight default link staplComment Comment

let b:current_syntax = "stapl"
