" Flat GHC: colours. In vimrc: set runtimepath+=REPOSITORY/editors/vim
if exists('b:current_syntax') | finish | endif
syntax match fghcVariable "\<[A-Z_]\w*\>"
syntax match fghcHead "^[a-z]\w*"
syntax match fghcNumber "\<\d\+\>"
syntax match fghcOperator ":=\|=:=\|=\\=\|=<\|>=\|[<>=+*/-]"
syntax match fghcCommit ":-\||"
syntax keyword fghcTest true wait integer atom list instream
syntax keyword fghcOperator mod
syntax match fghcComment "%.*$" contains=@Spell
highlight default link fghcComment Comment
highlight default link fghcVariable Identifier
highlight default link fghcHead Function
highlight default link fghcTest Keyword
highlight default link fghcNumber Number
highlight default link fghcCommit Statement
highlight default link fghcOperator Operator
let b:current_syntax = 'fghc'
