" Colours of Pierogi derivations.
if exists('b:current_syntax')
  finish
endif

syntax case match
syntax match pierogiDeclaration '^\%(derivation\|obligation\|end\)\>'
syntax match pierogiControl '^split\>'
syntax match pierogiStatement '^leaf\>'
syntax match pierogiNumber '-\?\<\d\+\>'

highlight default link pierogiDeclaration Structure
highlight default link pierogiControl Conditional
highlight default link pierogiStatement Statement
highlight default link pierogiNumber Number

let b:current_syntax = 'pierogi_derivation'
