" Vim filetype plugin for STAPL: `:make` checks the file, and `:StaplFormat` puts the buffer into canonical form.
if exists("b:did_ftplugin")
  finish
endif
let b:did_ftplugin = 1

compiler stapl
setlocal comments=:' commentstring='%s
command! -buffer StaplFormat call s:Format()
let b:undo_ftplugin = "setlocal comments< commentstring< makeprg< errorformat< | delcommand StaplFormat"

if exists("*s:Format")
  finish
endif

" Puts what zanutero-print writes in the place of the buffer, if the exit code is 0. Else the buffer stays as it is, the
" refusal is shown, and the cursor goes to its line. The program gets the bytes that a `:write` would write.
function s:Format() abort
  let l:code = empty(&fileencoding) ? &encoding : &fileencoding
  let l:lines = map(getline(1, "$"), "iconv(v:val, &encoding, l:code)")
  let l:written = systemlist("zanutero-print program=/dev/stdin 2>/dev/null", l:lines)
  if v:shell_error != 0
    let l:refusal = get(l:written, 0, "zanutero-print: exit code " . v:shell_error)
    call cursor(matchstr(l:refusal, '^R program \d\+ line \zs\d\+'), 1)
    redraw | echohl ErrorMsg | echomsg l:refusal | echohl None
    return
  endif
  call map(l:written, "iconv(v:val, l:code, &encoding)")
  let l:line = line(".")
  silent %delete _
  call setline(1, l:written)
  call cursor(l:line, 1)
endfunction
