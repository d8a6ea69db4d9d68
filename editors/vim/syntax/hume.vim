" The tokens of FSM-Hume, as docs/LANGUAGE.md has them. Of two matches at one place the one below counts.
if exists('b:current_syntax')
  finish
endif

syntax case match

syntax match humeName '[a-z][A-Za-z0-9_]*'
syntax match humeUpper '[A-Z][A-Za-z0-9_]*'
syntax match humeNumber '[0-9]\+'
syntax match humeSymbol '<<\|>>\|<=\|>=\|==\|/=\|->\|::\|_\*\|[()<>=|,;._*+@-]'
syntax match humeLetter "'\([ -&(-[\]-~]\|\\[nt\\']\)'"
syntax match humeQuoted '"[ !#-~]\{1,255}"'
syntax match humeComment '--.*$' contains=@Spell

syntax match humeDeclaration '\(data\|exception\|box\|stream\|wire\|in\|out\|from\|to\|initial\)[A-Za-z0-9_]\@!'
syntax match humeKeyword '\(match\|fair\|handle\|let\|if\|then\|else\|case\|of\|end\|raise\|update\)[A-Za-z0-9_]\@!'
syntax match humeType '\(bool\|char\|int\|nat\|vector\)[A-Za-z0-9_]\@!'
syntax match humeWord '\(div\|mod\|and\|or\|not\|as\)[A-Za-z0-9_]\@!'
syntax match humeTruth '\(true\|false\)[A-Za-z0-9_]\@!'

highlight default link humeUpper Identifier
highlight default link humeNumber Number
highlight default link humeSymbol Operator
highlight default link humeLetter Character
highlight default link humeQuoted String
highlight default link humeComment Comment
highlight default link humeDeclaration Structure
highlight default link humeKeyword Keyword
highlight default link humeType Type
highlight default link humeWord Operator
highlight default link humeTruth Boolean

let b:current_syntax = 'hume'
