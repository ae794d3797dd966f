" :make checks the model, and jumps to the place where it is refused. A 'poosl' on the PATH is taken, and
" else the launcher of the clone that this file stands in.
if exists('current_compiler')
  finish
endif
let current_compiler = 'poosl'

let s:poosl = executable('poosl') ? 'poosl' : expand('<sfile>:p:h:h:h:h') . '/poosl'
let &l:makeprg = shellescape(s:poosl) . ' check %:S'
CompilerSet errorformat=%f:%l:%c:\ %m
