" Vim syntax file for the Seuss notation. Made by tools/editors from the keywords in crates/seuss_text/specs/Words.antt; don't edit.
if exists("b:current_syntax")
  finish
endif

syn case match
syn keyword seussDeclaration seuss cat box var total partial action is semi end
syn keyword seussStatement when let if then else while do
syn keyword seussKind int bool seq
syn keyword seussBool true false
syn keyword seussWord and or not
syn keyword seussFunction first last rest front back len at add
syn keyword seussName result Input Output
syn match seussSign /\V:=\|->\|~>\|<>\|<=\|>=\|&+\|&-\|:\|;\|,\|.\|(\|)\|[\|]\|=\|<\|>\|+\|-\|*\|\/\|%/
syn match seussNumber /\v<\d+/
syn match seussComment /#.*/ contains=@Spell
" After a line of two percent signs comes the input.
syn region seussInput start=/\v^\%\%\r?$/ end=/\%$/ contains=seussInputNumber
syn match seussInputNumber contained /\v-?<\d+>/

hi def link seussDeclaration Structure
hi def link seussStatement Statement
hi def link seussKind Type
hi def link seussBool Boolean
hi def link seussWord Operator
hi def link seussFunction Function
hi def link seussName Identifier
hi def link seussSign Operator
hi def link seussNumber Number
hi def link seussComment Comment
hi def link seussInput PreProc
hi def link seussInputNumber Number

let b:current_syntax = "seuss"
