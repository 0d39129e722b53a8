" `:make` checks the outline of this window, and goes to the lines that the answer speaks of. In the window of a schedule or of a
" derivation it is `:make OUTLINE`. It calls the script ./pierogi of the repository that this file stands in, or g:pierogi where
" that is set.
if exists('current_compiler')
  finish
endif
let current_compiler = 'pierogi'

let s:script = get(g:, 'pierogi', expand('<sfile>:p:h:h:h:h') . '/pierogi')
let s:words = get({'pierogi_schedule': 'replay $* %:S', 'pierogi_derivation': 'verify $* %:S'}, &filetype, 'check %:S')
let &l:makeprg = 'PIEROGI_EXPLAIN=1 ' . shellescape(s:script) . ' ' . s:words

setlocal errorformat=%E%f:%l:%c:\ error:\ %m
setlocal errorformat+=%E%f:%l:\ error:\ %m
setlocal errorformat+=%E%f:\ error:\ %m
setlocal errorformat+=%I%f:%l:\ note:\ %m
setlocal errorformat+=%E%f:%l:\ %m
setlocal errorformat+=%-G%.%#
