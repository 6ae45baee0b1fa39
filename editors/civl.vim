" A compiler plugin for Vim: put this file into ~/.vim/compiler/, and then, in a text, `:compiler civl` and `:make`.
" `civl_explain` has to be on the PATH. Each line with a place goes to the quickfix list.
if exists("current_compiler")
  finish
endif
let current_compiler = "civl"

" Other words than `check` stand in b:civl_words, as `let b:civl_words = 'prove'`.
let &l:makeprg = 'civl_explain ' . get(b:, 'civl_words', 'check') . ' --lines < %:S'

" LINE:COLUMN: KIND: TEXT, of the file that is edited; all other lines stand as they are.
let &l:errorformat = '%l:%c: %tnfo: %m,%l:%c: %trror: %m,%-G%.%#'
