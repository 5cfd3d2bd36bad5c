" Colours for SIGMA's model texts in vim. README.md beside it says where to put it.
if exists("b:current_syntax")
  finish
endif
syntax case match

syntax match sigmaComment "#.*$" contains=@Spell
syntax match sigmaNumber "\<\d\+\>"

syntax keyword sigmaDeclaration model var table watch vertex version
syntax keyword sigmaType bool clip
syntax keyword sigmaChange set draw from in by
syntax keyword sigmaEdge schedule urgent cancel all after priority
syntax keyword sigmaCondition when if then else
syntax keyword sigmaOperator and or not min max
syntax keyword sigmaValue true false
syntax keyword sigmaClock clk
syntax keyword sigmaEnd end
syntax keyword sigmaCertificate certificate prune settle drop merge slice

highlight default link sigmaComment Comment
highlight default link sigmaNumber Number
highlight default link sigmaDeclaration Structure
highlight default link sigmaType Type
highlight default link sigmaChange Statement
highlight default link sigmaEdge Keyword
highlight default link sigmaCondition Conditional
highlight default link sigmaOperator Operator
highlight default link sigmaValue Boolean
highlight default link sigmaClock Special
highlight default link sigmaEnd Structure
highlight default link sigmaCertificate PreProc

setlocal commentstring=#\ %s
let b:current_syntax = "sigma"
