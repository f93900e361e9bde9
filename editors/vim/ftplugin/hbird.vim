" Comments and indentation of hbird, and `:make`, which runs `hb` on the file.
if exists("b:did_ftplugin")
  finish
endif
let b:did_ftplugin = 1

setlocal comments=:#
setlocal commentstring=#\ %s
setlocal suffixesadd=.hb
setlocal shiftwidth=2 softtabstop=2 expandtab
compiler hb

let b:undo_ftplugin = "setlocal comments< commentstring< suffixesadd< shiftwidth< softtabstop< expandtab<"
      \ . " makeprg< errorformat<"
