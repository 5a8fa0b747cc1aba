" Machine texts of l4run.
if exists("b:current_syntax")
  finish
endif

" A comment may stand behind words, and words behind blanks or a label, where the first line is `l4 P B 2`.
syntax match l4Comment ";.*$"
syntax match l4Head "^\s*\%(l4\|cpus\|name\)\ze "
syntax match l4Thread "^\s*thread\ze "
syntax match l4Label "^\s*\zs\a[A-Za-z0-9_-]*:"
syntax match l4Instruction "^\s*\%(\a[A-Za-z0-9_-]*:\s*\)\?\zs\%(set\|copy\|add\|from\|tag\|vs\|ipc\|exregs\|delete\|jump\|onerr\|onlabel\|onword\|onfrom\|end\)\ze\%([ \t;]\|$\)"
syntax match l4Name "\%(\S.*\)\@<= \zs\%(cpu\|space\|as\|to\|never\|zero\|nil\|any\|anylocal\|last\)\ze\%([ \t;]\|$\)"
syntax match l4Id "\%(\S.*\)\@<= \zs\%(\d\+\.\d\+\|#[0-9a-f]\+\|mr\d\+\)\ze\%([ \t;]\|$\)"
syntax match l4Number "\%(\S.*\)\@<= \zs\%(0x[0-9a-f]\+\|\d\+\%(us\|ms\|s\)\?\)\ze\%([ \t;]\|$\)"

highlight default link l4Comment Comment
highlight default link l4Head PreProc
highlight default link l4Thread Structure
highlight default link l4Label Label
highlight default link l4Instruction Statement
highlight default link l4Name Constant
highlight default link l4Id Identifier
highlight default link l4Number Number

let b:current_syntax = "l4"
