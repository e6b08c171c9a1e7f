" Colours for programs of kex.
if exists("b:current_syntax")
  finish
endif

syntax match kexLineComment "//.*$"
syntax region kexBlockComment start="/\*" end="\*/"

" A literal, with its escapes; an escape that isn't one is an error.
syntax match kexBadEscape "\\." contained
syntax match kexEscape "\\\([ntr\\\"]\|x\x\x\)" contained
syntax region kexLiteral start=+"+ skip=+\\.+ end=+"+ oneline contains=kexBadEscape,kexEscape

" A regular expression. A set may hold a slash only behind a backslash.
syntax match kexRegexSign "[*+?|(){}.]" contained
syntax match kexRegexLazy "[*+?}]?" contained
syntax match kexRegexEscape "\\." contained
syntax region kexSet start="\[" skip="\\." end="\]" oneline contained contains=kexRegexEscape
syntax region kexRegex start="/\([*/]\)\@!" skip="\\." end="/" oneline contains=kexRegexEscape,kexSet,kexRegexSign,kexRegexLazy

syntax match kexDefinition "\<\a\w*\ze\s*:="
syntax match kexStart "^\s*\zsstart\ze\s*:[^=]"
syntax match kexRegister "\<\a\w*\ze@"
syntax match kexWrite "!\s*\a\w*"
syntax match kexSign "[~|*+?]\|:=\|>>\|<-\|+="
syntax match kexLazy "[*+?}]\s*?"

highlight default link kexLineComment Comment
highlight default link kexBlockComment Comment
highlight default link kexLiteral String
highlight default link kexEscape SpecialChar
highlight default link kexBadEscape Error
highlight default link kexRegex Constant
highlight default link kexSet Special
highlight default link kexRegexEscape SpecialChar
highlight default link kexRegexSign Operator
highlight default link kexRegexLazy Special
highlight default link kexDefinition Function
highlight default link kexStart Keyword
highlight default link kexRegister Identifier
highlight default link kexWrite Identifier
highlight default link kexSign Operator
highlight default link kexLazy Special

let b:current_syntax = "kex"
