" :make compiles or assembles the text, and :copen lists its faults. The parentheses give tpw's messages to the pipe that vim adds,
" and not the image; :p:S is the file's path in quotes, so that no name is a command or an option.
if exists('current_compiler')
  finish
endif
let current_compiler = 'tpw'

CompilerSet makeprg=(tpw\ asm\ %:p:S\ >/dev/null)
CompilerSet errorformat=%f:%l:%c:\ %m,%+Gtpw:\ %m,%f:\ %m
