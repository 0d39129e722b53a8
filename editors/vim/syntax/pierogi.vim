" Colours of Pierogi outlines.
if exists('b:current_syntax')
  finish
endif

syntax case match
syntax match pierogiComment '#.*$' contains=pierogiTodo,@Spell
syntax keyword pierogiTodo TODO FIXME XXX contained
syntax keyword pierogiDeclaration pierogi values location register of auxiliary pre crash thread
syntax keyword pierogiControl if else while
syntax keyword pierogiStatement mfence sfence flush flushopt cas
syntax keyword pierogiConstant true false
syntax match pierogiNumber '\<\d\+\>'
syntax match pierogiAtom '\<[ACFLNOPR]\ze\s*('
syntax match pierogiSign ':=\|->\|!=\|[!&|]'
syntax region pierogiNote matchgroup=pierogiBracket start='\[' end='\]'
      \ contains=pierogiComment,pierogiConstant,pierogiNumber,pierogiAtom,pierogiSign
syntax region pierogiGhost matchgroup=pierogiBracket start='<' end='>'
      \ contains=pierogiComment,pierogiNumber,pierogiSign

highlight default link pierogiComment Comment
highlight default link pierogiTodo Todo
highlight default link pierogiDeclaration Structure
highlight default link pierogiControl Conditional
highlight default link pierogiStatement Statement
highlight default link pierogiConstant Boolean
highlight default link pierogiNumber Number
highlight default link pierogiAtom Function
highlight default link pierogiSign Operator
highlight default link pierogiNote PreProc
highlight default link pierogiGhost Special
highlight default link pierogiBracket Delimiter

let b:current_syntax = 'pierogi'
