" Lines are indented by blocks, as `hb fmt` does it.
if exists("b:did_indent")
  finish
endif
let b:did_indent = 1

setlocal indentexpr=hbird#Indent(v:lnum)
setlocal indentkeys=!^F,o,O,0),0=end,0=else

let b:undo_indent = "setlocal indentexpr< indentkeys<"
