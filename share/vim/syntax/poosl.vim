" The notation of POOSL. A test holds the words of the groups against the lexer's.
if exists('b:current_syntax')
  finish
endif
syntax case match

syntax keyword pooslDeclaration data process cluster class system extends
syntax keyword pooslSection ports messages variables init methods instances channels
syntax keyword pooslStatement skip delay abort interrupt with return
syntax keyword pooslConditional if then else fi sel or les
syntax keyword pooslRepeat while do od
syntax keyword pooslParallel par and rap
syntax keyword pooslOperator new
syntax keyword pooslConstant nil
syntax keyword pooslBoolean true false
syntax keyword pooslSelf self currentTime
" (reserved: no rule of the grammar has them)
syntax keyword pooslReserved super native import importlib

syntax keyword pooslType Object Nil Boolean Integer Char String Array
syntax keyword pooslTodo contained TODO FIXME XXX

" what calls a method of a process or declares one, and the port of a message
syntax match pooslMethod "\<\h\w*\ze\s*([^()]*)\s*("
syntax match pooslPort "\<\h\w*\ze\s*[!?]\s*\h"
syntax match pooslNumber "\<\d\+\(\.\d\+\)\?\>"
syntax match pooslEscape contained "\\\([\\\"'ntr]\|x\x\x\)"
syntax match pooslCharacter "'\([^'\\]\|\\[\\\"'ntr]\|\\x\x\x\)'" contains=pooslEscape
syntax region pooslString oneline start=+"+ skip=+\\.+ end=+"+ contains=pooslEscape
syntax region pooslComment start="//" end="$" contains=pooslTodo,@Spell
syntax region pooslComment start="/\*" end="\*/" contains=pooslTodo,@Spell

highlight default link pooslDeclaration Structure
highlight default link pooslSection StorageClass
highlight default link pooslStatement Statement
highlight default link pooslConditional Conditional
highlight default link pooslRepeat Repeat
highlight default link pooslParallel Keyword
highlight default link pooslOperator Operator
highlight default link pooslConstant Constant
highlight default link pooslBoolean Boolean
highlight default link pooslSelf Identifier
highlight default link pooslReserved Error
highlight default link pooslType Type
highlight default link pooslTodo Todo
highlight default link pooslMethod Function
highlight default link pooslPort Identifier
highlight default link pooslNumber Number
highlight default link pooslEscape SpecialChar
highlight default link pooslCharacter Character
highlight default link pooslString String
highlight default link pooslComment Comment

let b:current_syntax = 'poosl'
