" Vim itself takes *.hb for another language, so this is no `setfiletype`.
autocmd BufNewFile,BufRead *.hb set filetype=hbird
