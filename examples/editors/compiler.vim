" Takes vim to where a SIGMA model text is wrong, by `:make`. README.md beside it says where to put it.
if exists("current_compiler")
  finish
endif
let current_compiler = "sigma"

CompilerSet makeprg=sigma-lab\ place\ %:S
CompilerSet errorformat=%f:%l:%c:\ %m,%-G%.%#
