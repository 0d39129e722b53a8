" Colours of Pierogi schedules.
if exists('b:current_syntax')
  finish
endif

syntax case match
syntax match pierogiComment '^\s*#.*$' contains=@Spell
syntax match pierogiDeclaration '\%1l^\s*schedule\>'
syntax match pierogiStatement '^\s*\zs\%(step\|crash\)\>'
syntax keyword pierogiControl at
syntax match pierogiNumber '\<\d\+\>'

highlight default link pierogiComment Comment
highlight default link pierogiDeclaration Structure
highlight default link pierogiControl Conditional
highlight default link pierogiStatement Statement
highlight default link pierogiNumber Number

let b:current_syntax = 'pierogi_schedule'
