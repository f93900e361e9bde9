" How lines of hbird are indented, and what becomes of a line with two places.

" A line up to a column that is in no text and no comment. Texts end on their line.
let s:code = '^\%([^"#]\|"\%(\\.\|[^"\\]\)*"\)*'
let s:openers = '\C\%((\|\<\%(setup\|script\|def\|if\|while\)\>\)'
let s:closers = '\C\%()\|\<end\>\)'

" Gives the place in a body an entry of its own, behind that of the call. A line has one entry at most by itself.
function! hbird#Split(command) abort
  let l:is_local = a:command =~# '^l'
  let l:entries = l:is_local ? getloclist(0) : getqflist()
  let l:found = []
  for l:entry in l:entries
    let l:parts = matchlist(l:entry.text, '\C^\(stop IllTyped .\{-1,}:\d\+:\d\+\) \(\a\+ .\+:\(\d\+\):\(\d\+\)\)$')
    if empty(l:parts)
      call add(l:found, l:entry)
    else
      let l:body = {"lnum": str2nr(l:parts[3]), "col": str2nr(l:parts[4]), "vcol": 0, "text": l:parts[2]}
      call add(l:found, extend(copy(l:entry), {"text": l:parts[1]}))
      call add(l:found, extend(copy(l:entry), l:body))
    endif
  endfor
  if len(l:found) == len(l:entries)
    return
  elseif l:is_local
    call setloclist(0, [], "r", {"items": l:found})
  else
    call setqflist([], "r", {"items": l:found})
  endif
endfunction

function! s:IsHidden() abort
  return strpart(getline("."), 0, col(".") - 1) !~# s:code . '$'
endfunction

" Whether the code before a line wants more.
function! s:GoesOn(line) abort
  let l:line = a:line - 1
  while l:line > 0
    let l:code = matchstr(getline(l:line), s:code)
    if l:code =~# '\S'
      return l:code =~# '\%([(,:.=<+*-]\|->\|\<\%(not\|print\)\)\s*$'
    endif
    let l:line -= 1
  endwhile
  return 0
endfunction

" The blanks before a line, by the rules of `hb fmt`.
function! hbird#Indent(line) abort
  call cursor(a:line, 1)
  let [l:opener, l:column] = searchpairpos(s:openers, '', s:closers, "bnW", "s:IsHidden()")
  let l:depth = l:opener ? indent(l:opener) : 0
  if getline(a:line) =~# '^\s*\%()\|\%(end\|else\)\>\)'
    return l:depth
  endif
  let l:word = l:opener ? strpart(getline(l:opener), l:column - 1) : "script"
  let l:depth += l:word =~# '^\%(script\|setup\)' ? 0 : shiftwidth()
  return l:depth + (l:word !~# '^(' && s:GoesOn(a:line) ? shiftwidth() : 0)
endfunction
