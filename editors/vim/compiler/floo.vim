" :compiler floo, then :make runs the script, and an error is jumped to
if exists("current_compiler")
  finish
endif
let current_compiler = "floo"
CompilerSet makeprg=floo\ %:S
CompilerSet errorformat=%f:%l:%c:\ %m,%f:\ %m,%-G%.%#
