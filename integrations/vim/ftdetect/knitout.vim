" Vim filetype detection: knitout programs.
" (Vim itself takes *.k for another language, so that `setfiletype` would be too late.)
autocmd BufNewFile,BufRead *.k,*.knitout set filetype=knitout
