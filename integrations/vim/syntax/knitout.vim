" Vim syntax file: knitout, the text format of machine-knitting programs.
" Copy the folders syntax and ftdetect to ~/.vim/, for Neovim to ~/.config/nvim/.
if exists("b:current_syntax")
  finish
endif

syntax case match

" A line is tokens between spaces and tabs, up to the first semicolon. What stands where something else is due is an
" error, as the word of no instruction, or whatever is behind a line's last part.
syntax match knitoutError "[^ \t;]\+"
syntax match knitoutComment ";.*" contains=@Spell
syntax match knitoutHeader "^;;[^:]\+:.*" contains=knitoutKey
syntax match knitoutKey "^;;[^:]\+:" contained
syntax match knitoutMagic "\%1l^;!knitout-2[ \t]*$"

" Carriers may be any tokens, and there may be several.
syntax match knitoutCarrier "[^ \t;]\+" contained nextgroup=knitoutCarrier skipwhite
syntax match knitoutAnything "[^ \t;]\+" contained nextgroup=knitoutAnything skipwhite
syntax match knitoutRack "[+-]\?\%(\d\+\%(\.\d*\)\?\|\.\d\+\)\%([ \t;]\|$\)\@=" contained
syntax match knitoutDirection "[+-]\%([ \t;]\|$\)\@=" contained nextgroup=knitoutNeedle skipwhite
syntax match knitoutDirectionOfSplit "[+-]\%([ \t;]\|$\)\@=" contained nextgroup=knitoutNeedleFrom skipwhite
syntax match knitoutNeedle "[fb]s\?[+-]\?\d\+\%([ \t;]\|$\)\@=" contained nextgroup=knitoutCarrier skipwhite
syntax match knitoutNeedleFrom "[fb]s\?[+-]\?\d\+\%([ \t;]\|$\)\@=" contained nextgroup=knitoutNeedle skipwhite
syntax match knitoutNeedleTo "[fb]s\?[+-]\?\d\+\%([ \t;]\|$\)\@=" contained
syntax match knitoutNeedleMoved "[fb]s\?[+-]\?\d\+\%([ \t;]\|$\)\@=" contained nextgroup=knitoutNeedleTo skipwhite

" Instructions; the word is the first token of its line.
syntax match knitoutYarn "^[ \t]*\%(inhook\|in\|outhook\|out\|releasehook\)\%([ \t;]\|$\)\@=" nextgroup=knitoutCarrier skipwhite
syntax match knitoutForm "^[ \t]*\%(knit\|tuck\|miss\)\%([ \t;]\|$\)\@=" nextgroup=knitoutDirection skipwhite
syntax match knitoutSplit "^[ \t]*split\%([ \t;]\|$\)\@=" nextgroup=knitoutDirectionOfSplit skipwhite
syntax match knitoutMove "^[ \t]*xfer\%([ \t;]\|$\)\@=" nextgroup=knitoutNeedleMoved skipwhite
syntax match knitoutDrop "^[ \t]*\%(drop\|amiss\)\%([ \t;]\|$\)\@=" nextgroup=knitoutNeedleTo skipwhite
syntax match knitoutRacking "^[ \t]*rack\%([ \t;]\|$\)\@=" nextgroup=knitoutRack skipwhite
syntax match knitoutOther "^[ \t]*\%(stitch\|pause\|x-[^ \t;]*\)\%([ \t;]\|$\)\@=" nextgroup=knitoutAnything skipwhite

highlight default link knitoutError Error
highlight default link knitoutComment Comment
highlight default link knitoutHeader String
highlight default link knitoutKey Keyword
highlight default link knitoutMagic PreProc
highlight default link knitoutCarrier Identifier
highlight default link knitoutRack Number
highlight default link knitoutDirection Operator
highlight default link knitoutDirectionOfSplit Operator
highlight default link knitoutNeedle Constant
highlight default link knitoutNeedleFrom Constant
highlight default link knitoutNeedleTo Constant
highlight default link knitoutNeedleMoved Constant
highlight default link knitoutYarn Statement
highlight default link knitoutForm Statement
highlight default link knitoutSplit Statement
highlight default link knitoutMove Statement
highlight default link knitoutDrop Statement
highlight default link knitoutRacking Statement
highlight default link knitoutOther PreProc

let b:current_syntax = "knitout"
