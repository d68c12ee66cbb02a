" Settings for AC. :make checks the file, and :AcRun runs it and lists where its cores ended; docs/EDITORS.md says more.
if exists('b:did_ftplugin')
  finish
endif
let b:did_ftplugin = 1

setlocal iskeyword=a-z,A-Z,48-57,_
setlocal comments=s1:/*,mb:*,ex:*/,://
setlocal commentstring=//\ %s
setlocal makeprg=ac-where\ --columns=bytes\ check\ --\ %:S
setlocal errorformat=%f:%l:%c:\ %m
setlocal errorformat+=%+G%.%#:\ library\ fault:\ %.%#,%+Gac-where:\ %.%#,%+Gusage:\ %.%#
setlocal errorformat+=%+Glimit:\ source,%+Glimit:\ steps,%+Glimit:\ file\ %.%#,%+Gdisk\ fault,%-G%.%#

if !exists('*s:run')
  function s:run()
    let l:checks = &l:makeprg
    let &l:makeprg = 'ac-where --columns=bytes run -- %:S'
    try
      make!
    finally
      let &l:makeprg = l:checks
    endtry
  endfunction
endif
command! -buffer -bar AcRun call s:run()

let b:undo_ftplugin = 'setlocal iskeyword< comments< commentstring< makeprg< errorformat< | silent! delcommand AcRun'
