" Vim filetype plugin for sources of Rez.
" With a Makefile that calls rezkit or Rez, :make goes to the line of an error. Without one, `:compiler rezkit` first.

if exists("b:did_ftplugin")
  finish
endif
let b:did_ftplugin = 1

setlocal commentstring=//\ %s
setlocal comments=s1:/*,mb:*,ex:*/,://
setlocal include=^\\s*#\\s*include
setlocal errorformat=rezkit:\ %f:%l:\ %trror\ %n\ %m,rezkit:\ %f:%l:\ %tarning\ %n\ %m,rezkit:\ %trror\ %n\ %m,%-GRez:\ %m

let b:undo_ftplugin = "setlocal commentstring< comments< include< errorformat<"
