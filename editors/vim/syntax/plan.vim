" Colours for plans in sentences. Made by editors/make from editors/keywords.txt.
if exists('b:current_syntax')
  finish
endif
syntax case match

syntax match planRange /\%(^\|[ \t\r"]\)\@1<=-\=[0-9]\+\%(:[0-5][0-9]\)\=\%(\.\.\%(-\=[0-9]\+\%(:[0-5][0-9]\)\=\)\=\)\=\%([ \t\r]\|$\)\@=/
syntax match planLine /\%(^\|[ \t\r"]\)\@1<=\%(deadline\|start\|step\|task\)\%([ \t\r]\|$\)\@=/
syntax match planBound /\%(^\|[ \t\r"]\)\@1<=\%(at\|by\|after\|within\|with\)\%([ \t\r]\|$\)\@=/
syntax match planObservation /\%(^\|[ \t\r"]\)\@1<=\%(observes\|as\|result\)\%([ \t\r]\|$\)\@=/
syntax match planLabel /\%(^\|[ \t\r"]\)\@1<=\%(if\|and\|not\)\%([ \t\r]\|$\)\@=/
syntax match planSide /\%(^\|[ \t\r"]\)\@1<=\%(end\|of\)\%([ \t\r]\|$\)\@=/
syntax match planDeclared /\%(^[ \t\r]*\%(step\|task\)[ \t]\+\)\@<=[^ \t\r"#][^ \t\r]*/
syntax match planProposition /\%(\%(^\|[ \t\r"]\)\@1<=\%(observes\|as\|if\|not\|result[ \t]\+of\)[ \t]\+\)\@<=[A-Za-z][A-Za-z0-9_-]*\%([ \t\r]\|$\)\@=/
syntax match planProposition /\%(\%(^\|[ \t\r"]\)\@1<=if[ \t].*[ \t]and[ \t]\+\)\@<=\%(not\%([ \t\r]\|$\)\@=\)\@![A-Za-z][A-Za-z0-9_-]*\%([ \t\r]\|$\)\@=/
syntax match planLabel /\%(\%(^\|[ \t\r"]\)\@1<=if[ \t]\+\)\@<=not\%([ \t\r]\|$\)\@=/
syntax match planQuoted /\%(^\|[ \t\r"]\)\@1<="[^"]*"/
syntax match planUnclosed /\%(^\|[ \t\r"]\)\@1<="[^"]*$/
syntax match planComment /\%(^\|[ \t\r"]\)\@1<=#.*$/ contains=@Spell

highlight default link planLine Statement
highlight default link planBound Keyword
highlight default link planObservation Keyword
highlight default link planLabel Conditional
highlight default link planSide Keyword
highlight default link planRange Number
highlight default link planDeclared Type
highlight default link planProposition Identifier
highlight default link planQuoted String
highlight default link planUnclosed Error
highlight default link planComment Comment

let b:current_syntax = 'plan'
