" Syntax of chanl programs. Copy the folders of editors/vim into ~/.vim.
if exists("b:current_syntax")
  finish
endif

syntax match chanlComment "//.*$"
syntax match chanlNumber "\<[0-9]\+\>"
syntax keyword chanlDeclaration proto fn
syntax keyword chanlStatement let fork do send1 recv1 send recv close wait left right print
syntax keyword chanlBranch if else match branch absurd ret loop again then choice offer of as inl inr
syntax keyword chanlProof with by via
syntax keyword chanlShape int unit end sum
syntax keyword chanlOperation mul div rem
syntax match chanlMark "->\|<=\|[~#|+*<=:-]"
" The number of an arm; behind a number and a space a # names a hypothesis.
syntax match chanlTag "\%([0-9] \)\@<!#\%(1[0-5]\|[0-9]\)\>"

highlight default link chanlComment Comment
highlight default link chanlNumber Number
highlight default link chanlDeclaration Keyword
highlight default link chanlStatement Statement
highlight default link chanlBranch Conditional
highlight default link chanlProof PreProc
highlight default link chanlShape Type
highlight default link chanlOperation Function
highlight default link chanlMark Operator
highlight default link chanlTag Conditional

let b:current_syntax = "chanl"
