" Files .r are sources of Rez if one of their first 200 lines looks like one. R, Rexx and Rebol have the same ending.
" `let g:filetype_r = 'rez'` takes all of them for Rez.

func! s:Look() abort
  if get(g:, 'filetype_r', '') ==# 'rez'
    set filetype=rez
    return
  endif
  for l:line in getline(1, 200)
    if l:line =~? '^\s*\%(resource\|data\|type\|read\|change\|delete\)\s\+''.\{1,4}''' || l:line =~? '^\s*#\?\s*include\s*["<].\+["> ]'
      set filetype=rez
      return
    endif
  endfor
endfunc

au BufRead,BufNewFile *.r,*.R call s:Look()
au BufRead,BufNewFile *.rez set filetype=rez
