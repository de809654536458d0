" Settings for sources of c25. The compiler file is taken at once, so that :make assembles.
if exists('b:did_ftplugin')
  finish
endif
let b:did_ftplugin = 1

setlocal comments=:;,:* commentstring=;\ %s
setlocal iskeyword=@,48-57,_,$
compiler c25

let b:undo_ftplugin = 'setlocal comments< commentstring< iskeyword< makeprg< errorformat<'
