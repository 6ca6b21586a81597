" `:compiler fslpp` and then `:make` checks the file of the buffer; the place of a failure is gone to.
" The script stands in the folder editors of the repository, two folders above this file.
let current_compiler = "fslpp"
let &l:makeprg = shellescape(expand("<sfile>:p:h:h:h") . "/check_file") . " %:S"
setlocal errorformat=%f:%l:%c:\ %m,%-G%.%#
