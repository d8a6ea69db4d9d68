" `:compiler hume`, and then `:make` checks the source: a line FILE:LINE: refused CODE: TEXT is an error at its place.
if exists('current_compiler')
  finish
endif
let current_compiler = 'hume'

CompilerSet makeprg=hume\ check\ %:S
CompilerSet errorformat=%f:%l:%c:\ refused\ %n:\ %m,%f:%l:\ refused\ %n:\ %m,%f:%l:%c:\ refused\ %n,%f:%l:\ refused\ %n,%-G%.%#
