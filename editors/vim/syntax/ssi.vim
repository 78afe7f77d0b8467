" Layouts and scripts of ssi.
if exists('b:current_syntax')
  finish
endif

syntax case match
syntax match ssiComment "/.*" contains=ssiExpect
syntax match ssiExpect "/=.*" contained
syntax match ssiFile "[a-z]\@1<!file\_s\+\(PTS\|SIG\|TCS\|RTE\|SUB\|FLG\|TFM\|PRR\|PFM\|FOP\|OPT\|IPT\|RUN\)[A-Z0-9-]\@!"
syntax match ssiPoints "[A-Z0-9-]\@1<!P[A-Z0-9-]\+"
syntax match ssiSignal "[A-Z0-9-]\@1<!S[A-Z0-9-]\+"
syntax match ssiTrack "[A-Z0-9-]\@1<!T[A-Z0-9-]\+"
syntax match ssiRoute "[A-Z0-9-]\@1<!R[A-Z0-9-]\+"
syntax match ssiSubRoute "[A-Z0-9-]\@1<!U[A-Z0-9-]\+"
syntax match ssiFlag "[A-Z0-9-]\@1<!L[A-Z0-9-]\+"
syntax match ssiRequest "[A-Z0-9-]\@1<!Q[A-Z0-9-]\+"
syntax match ssiLongName "[A-Z0-9-]\@1<![A-Z][A-Z0-9-]\{16,}"
syntax match ssiNumber "[A-Z0-9-]\@1<!\(0\|[1-9][0-9]\{0,6}\)[0-9]\@!"
syntax match ssiWord "[a-z]\@1<!\(cn\|cr\|cnf\|crf\|dn\|xdn\|dr\|xdr\|lp\|xlp\|o\|c\|s\|xs\|a\|xa\|l\|f\|h\)[a-z]\@!"
syntax match ssiChoice "[a-z]\@1<!\(if\|then\|else\|end\|or\)[a-z]\@!"
syntax match ssiJoin "[a-z]\@1<!\(over\|from\|by\|on\|with\|at\|bit\|points\|signal\|track\)[a-z]\@!"
syntax match ssiStep "[a-z]\@1<!\(panel\|cycle\|occupy\|clear\|fail\|mend\|jam\|unjam\|dead\|live\|raw\|lose\|drop\)[a-z]\@!"
syntax match ssiMark "[,.()]"

highlight default link ssiComment Comment
highlight default link ssiExpect SpecialComment
highlight default link ssiFile PreProc
highlight default link ssiPoints Type
highlight default link ssiSignal Special
highlight default link ssiTrack Identifier
highlight default link ssiRoute Function
highlight default link ssiSubRoute Structure
highlight default link ssiFlag Constant
highlight default link ssiRequest Tag
highlight default link ssiLongName Error
highlight default link ssiNumber Number
highlight default link ssiWord Statement
highlight default link ssiChoice Conditional
highlight default link ssiJoin Keyword
highlight default link ssiStep Macro
highlight default link ssiMark Delimiter

let b:current_syntax = 'ssi'
