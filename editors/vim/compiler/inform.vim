" :compiler inform, then :make compiles the file at hand, and :cnext goes to its next message.
" g:inform_words has words for the compiler, as '+/home/me/inform/lib -D'.
if exists('current_compiler')
  finish
endif
let current_compiler = 'inform'
execute 'CompilerSet makeprg=' . escape('inform ' . get(g:, 'inform_words', '') . ' %:S', ' \|"')
CompilerSet errorformat=%f(%l):\ Fatal\ %trror:\ %m,%f(%l):\ %trror:\ %m,%f(%l):\ %tarning:\ %m,%-G%.%#
