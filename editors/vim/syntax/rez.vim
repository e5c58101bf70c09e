" Vim syntax file
" Language: Rez, the resource description language of the classic Macintosh, as rezkit reads it
" The words are those of the language's tables; tools/check/editors.py looks that none is missing.

if exists("b:current_syntax")
  finish
endif
let s:cpo_save = &cpo
set cpo&vim

syn case ignore

syn keyword rezStatement type resource data include read change delete as to not
syn keyword rezField array wide switch case key fill align
syn keyword rezType bit nibble byte word long integer longint bitstring boolean char string pstring wstring cstring point rect
syn keyword rezFormat hex decimal octal binary literal unsigned
syn keyword rezAttribute appheap sysheap nonpurgeable purgeable unlocked locked unprotected protected nonpreload preload unchanged changed
syn keyword rezConstant true false
syn keyword rezTest defined rez derez

syn match rezFunction "\$\$\%(CountOf\|ArrayIndex\|BitField\|Byte\|Word\|Long\)\>"
syn match rezFunction "\$\$\%(ID\|Type\|Attributes\|Year\|Month\|Day\|Hour\|Minute\|Second\|Weekday\)\>"
syn match rezFunction "\$\$\%(Name\|Date\|Time\|Version\|Read\|Resource\|Format\)\>"

syn match rezNumber "\<\%(0x\x\+\|0b[01]\+\|\d\+\)\>"
syn match rezNumber "\$\x\+\>"

syn match rezEscape contained "\\\%(0x\x\{2}\|0b[01]\{8}\|0d\d\{3}\|\$\x\{2}\|\o\{3}\|[tbnrvf?\\'"]\)"
syn region rezString start=+"+ skip=+\\\\\|\\"\|\\$+ end=+"+ end=+$+ keepend contains=rezEscape
syn region rezLiteral start=+'+ skip=+\\\\\|\\'\|\\$+ end=+'+ end=+$+ keepend contains=rezEscape
syn region rezHex start=+\$"+ skip=+\\$+ end=+"+ end=+$+ keepend

syn keyword rezTodo contained TODO FIXME XXX
syn region rezComment start="/\*" end="\*/" contains=rezTodo
syn region rezComment start="//" skip="\\$" end="$" keepend contains=rezTodo

syn match rezInclude "^\s*#\s*include\>"
syn match rezDefine "^\s*#\s*\%(define\|undef\)\>"
syn match rezCondition "^\s*#\s*\%(if\|elif\|ifdef\|ifndef\|else\|endif\)\>"

syn sync ccomment rezComment minlines=50

hi def link rezStatement Statement
hi def link rezField Keyword
hi def link rezType Type
hi def link rezFormat StorageClass
hi def link rezAttribute Special
hi def link rezConstant Boolean
hi def link rezTest Operator
hi def link rezFunction Function
hi def link rezNumber Number
hi def link rezEscape SpecialChar
hi def link rezString String
hi def link rezLiteral Character
hi def link rezHex Number
hi def link rezTodo Todo
hi def link rezComment Comment
hi def link rezInclude Include
hi def link rezDefine Define
hi def link rezCondition PreCondit

let b:current_syntax = "rez"
let &cpo = s:cpo_save
unlet s:cpo_save
