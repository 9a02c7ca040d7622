" Essence Prime, as docs/LANGUAGE.md tells it. Copy this folder's syntax/ and ftdetect/ into ~/.vim.
if exists("b:current_syntax")
  finish
endif
syntax case match
syntax keyword eprimeStatement language given letting where find such that minimising minimizing maximising maximizing branching on heuristic be
syntax keyword eprimeType domain matrix indexed by of int bool union intersect
syntax keyword eprimeQuantifier forAll exists in
syntax keyword eprimeFunction toInt toSet flatten sum product and or min max allDiff gcc atleast atmost table factorial
syntax keyword eprimeConstant true false
syntax match eprimeHeader "\<ESSENCE'"
syntax match eprimeNumber "\<[0-9]\{1,18}\>"
syntax match eprimeOperator "<->\|->\|/\\\|\\/\|\.\.\|\*\*\|!=\|<=\|>=\|[-+*/%!=<>|]"
syntax match eprimeOperator "\(<=lex\|>=lex\|<lex\|>lex\)\>"
syntax match eprimeComment "\$.*$"
highlight default link eprimeStatement Statement
highlight default link eprimeType Type
highlight default link eprimeQuantifier Operator
highlight default link eprimeFunction Function
highlight default link eprimeConstant Boolean
highlight default link eprimeHeader Special
highlight default link eprimeNumber Number
highlight default link eprimeOperator Operator
highlight default link eprimeComment Comment
let b:current_syntax = "eprime"
