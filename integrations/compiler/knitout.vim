" Vim compiler file: checks the knitout program in the buffer's file by tekhvumo.
" Copy it to ~/.vim/compiler/; then `:compiler knitout` and `:make` fill the quickfix list.
if exists("current_compiler")
  finish
endif
let current_compiler = "knitout"

CompilerSet makeprg=tekhvumo\ --warn\ --\ %:S
CompilerSet errorformat=%f:%l:%c:\ %trror:\ %m,%f:%l:%c:\ %tarning:\ %m
