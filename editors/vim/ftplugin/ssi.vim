" How layouts and scripts are edited: comments from / to the end of the line, names with hyphens.
if exists('b:did_ftplugin')
  finish
endif
let b:did_ftplugin = 1

setlocal comments=:/ commentstring=/\ %s
setlocal iskeyword=@,48-57,-
setlocal expandtab shiftwidth=2
compiler ssi

let b:undo_ftplugin = 'setlocal comments< commentstring< iskeyword< expandtab< shiftwidth< makeprg< errorformat<'
