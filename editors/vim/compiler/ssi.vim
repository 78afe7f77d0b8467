" :make shows the faults of the text, those that look guesses among them, and jumps to the first.
if exists('current_compiler')
  finish
endif
let current_compiler = 'ssi'

" The command is `look`; where it stands elsewhere, say let g:ssi_look = '/path/to/look'.
let s:look = get(g:, 'ssi_look', 'look')
execute 'CompilerSet makeprg=' . escape(s:look . ' --faults %:S', ' \|"')
CompilerSet errorformat=%f:%l:%c:\ %m,%-G%.%#
