" Descriptions of games of Regular Boardgames.
if exists("b:current_syntax")
  finish
endif

syntax match rbgComment "//.*$"
syntax match rbgName "\<[A-Za-z_][A-Za-z0-9_]*\>"
syntax match rbgNumber "\<[0-9]\+\>"
syntax match rbgCall "\<[A-Za-z_][A-Za-z0-9_]*\>\ze\s*([^()]*[;)]"
syntax match rbgBoard "\<\(rectangle\|hexagon\|graph\)\>\ze\s*("
syntax match rbgOperator "[-+*/<>=~$?!]"
syntax match rbgPlayer "\(->\s*\)\@<=[A-Za-z_][A-Za-z0-9_]*"
syntax match rbgSwitch "->>\="
syntax match rbgMacro "#\s*[A-Za-z_][A-Za-z0-9_]*"
syntax match rbgSection "#\s*\(players\|pieces\|variables\|board\|rules\)\>"

highlight default link rbgComment Comment
highlight default link rbgName Identifier
highlight default link rbgNumber Number
highlight default link rbgCall Function
highlight default link rbgBoard Keyword
highlight default link rbgOperator Operator
highlight default link rbgPlayer Type
highlight default link rbgSwitch Statement
highlight default link rbgMacro Function
highlight default link rbgSection Keyword

setlocal commentstring=//\ %s

let b:current_syntax = "rbg"
