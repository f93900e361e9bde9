" Runs programs of hbird by `hb`, which is to be on the PATH, and finds the places in what it writes.
" Where a body is ill typed, the place of the call and that in the body are two entries.
if exists("current_compiler")
  finish
endif
let current_compiler = "hb"

" Behind -- a file's name is no option, and what stands before a file's name is told exactly, as it may have blanks.
CompilerSet makeprg=hb\ --\ %:S
CompilerSet errorformat=%+Estop\ IllTyped\ %f:%l:%c\ %*[A-Za-z]\ %.%#,
      \%+Estop\ %*[A-Za-z]\ %f:%l:%c,
      \%+Etext\ Expected\ %*[^\ ]\ %f:%l:%c,
      \%+Etext\ TooMany\ %*[^\ ]\ %f:%l:%c,
      \%+Etext\ %*[A-Za-z]\ %f:%l:%c,
      \%-G%.%#

augroup hbird
  autocmd!
  autocmd QuickFixCmdPost * call hbird#Split(expand("<amatch>"))
augroup END
