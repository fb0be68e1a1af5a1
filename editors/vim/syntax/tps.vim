" Assembly text of workers (docs/ASSEMBLY.md).
if exists('b:current_syntax')
  finish
endif

syntax case ignore
syntax match tpsComment /;.*$/
syntax match tpsComment /--.*$/
syntax match tpsNumber /-\?\<\d\+\>/
syntax match tpsNumber /#\x\+\>/
syntax match tpsNumber /\<0x\x\+\>/
syntax match tpsLabel /^\s*\zs[^:\/[:space:];]\+\ze\s*:/
syntax keyword tpsStatement packet result start workspace version init byte loop head lend control turns
syntax keyword tpsInstruction j ldlp ldnl ldc ldnlp ldl adc cj ajw eqc stl stnl
syntax keyword tpsInstruction rev lb bsub diff add in prod gt wsub out sub seterr csub0 stopp rem div not xor sb shr shl mint and or move sum mul

highlight default link tpsComment Comment
highlight default link tpsNumber Number
highlight default link tpsLabel Label
highlight default link tpsStatement Statement
highlight default link tpsInstruction Function

let b:current_syntax = 'tps'
