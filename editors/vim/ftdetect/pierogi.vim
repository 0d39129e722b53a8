" Outlines of Pierogi, by the end of their names; schedules and derivations by their first word, too.
autocmd BufNewFile,BufRead *.pierogi setfiletype pierogi
autocmd BufRead *.schedule if getline(1) =~# '^\s*schedule\>' | setfiletype pierogi_schedule | endif
autocmd BufRead *.derivation if getline(1) =~# '^derivation\>' | setfiletype pierogi_derivation | endif
