" Vim compiler file: :make compiles the source in the window by rezkit, and goes to the line of an error.
" g:rezkit_arguments are more arguments, as '-i types'; g:rezkit_program is the program, else rezkit on the path.

if exists("current_compiler")
  finish
endif
let current_compiler = "rezkit"

let s:program = get(g:, 'rezkit_program', 'rezkit')
let s:arguments = get(g:, 'rezkit_arguments', '')
exe 'CompilerSet makeprg=' .. escape(s:program .. ' rez %:S ' .. s:arguments .. ' -o %:r:S.rsrc $*', ' \|"')
CompilerSet errorformat=rezkit:\ %f:%l:\ %trror\ %n\ %m,rezkit:\ %f:%l:\ %tarning\ %n\ %m,rezkit:\ %trror\ %n\ %m,%-GRez:\ %m
