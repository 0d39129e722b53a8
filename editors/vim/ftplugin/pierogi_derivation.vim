" How derivations of Pierogi are looked at.
if exists('b:did_ftplugin')
  finish
endif
let b:did_ftplugin = 1

compiler pierogi

let b:undo_ftplugin = 'setlocal makeprg< errorformat<'
