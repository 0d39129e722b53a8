" How schedules of Pierogi are edited.
if exists('b:did_ftplugin')
  finish
endif
let b:did_ftplugin = 1

setlocal commentstring=#\ %s comments=:#
compiler pierogi

let b:undo_ftplugin = 'setlocal commentstring< comments< makeprg< errorformat<'
