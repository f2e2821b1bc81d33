" Vim syntax of scripts of lore.
"
" Put it into ~/.vim/syntax/, and into ~/.vim/ftdetect/lore.vim the line
"   autocmd BufRead,BufNewFile *.lore setfiletype lore

if exists("b:current_syntax")
  finish
endif

syntax case match
syntax sync fromstart

" What stands between two statements is out of place. Of two items that match at one place vim takes the later one.
syntax match   loreStray   "[^[:space:]]"

syntax match   loreEscape  contained "\\["'\\nrt]"
syntax region  loreText    contained start=+"+ skip=+\\.+ end=+"+ contains=loreEscape
syntax region  loreQuoted  contained start=+'+ skip=+\\.+ end=+'+ contains=loreEscape
syntax match   loreNumber  contained "-\?\d\+"
syntax match   loreLocal   contained "&\d\+"
syntax match   loreSign    contained "[:+-]\?=\|==\|!=\|[<>]=\?\|[?*+|@,():]"

syntax match   loreComment "--.*$"

" A statement goes from its first word to its semicolon.
syntax match   loreWord    contained "[A-Za-z_][A-Za-z0-9_]*"
syntax keyword loreReserved contained select from where
syntax keyword loreFlag    contained true false
syntax keyword loreLogic   contained and or not exists for all in like
syntax match   lorePathOf  contained "path-of[A-Za-z0-9_%]\@!"
syntax match   loreLabel   contained "\.\_s*[A-Za-z0-9_%]\+"
syntax match   loreLabel   contained "\.\_s*#"
syntax match   loreLabel   contained "\.\_s*'\%([^'\\]\|\\.\)\+'"
syntax match   loreMember  contained "[A-Za-z_][A-Za-z0-9_]*"
" In braces `true` may be a label too, but then a literal stands behind it.
syntax match   loreTruth   contained "\<\%(true\|false\)\>\%(\_s*[,}]\)\@="
syntax region  loreBraces  contained matchgroup=loreSign start="{" end="}"
      \ contains=loreComment,loreNumber,loreText,loreQuoted,loreLocal,loreMember,loreTruth,loreBraces
syntax region  loreScript  matchgroup=loreStatement end=";"
      \ start="\<\%(load\|name\|unname\|update\|select\|explain\|guide\|browse\|sample\|dump\|generate\|at\|changes\|blocks\|watch\|unwatch\|show\)\>"
      \ contains=loreSign,loreNumber,loreComment,loreText,loreLocal,loreWord,loreReserved,loreFlag,loreLogic,lorePathOf,loreLabel,loreBraces
syntax region  loreScript  matchgroup=loreStatement start="\<set\>" end=";" contains=loreStray,loreNumber,loreComment,loreMode
syntax keyword loreMode    contained nodes plan auto top bottom guide
syntax region  loreScript  matchgroup=loreStatement start="\<history\>" end=";" contains=loreStray,loreComment,loreKept
syntax keyword loreKept    contained on off

" The text of a dump: words of its own, of which some have a label or a name behind them.
syntax region  loreScript  matchgroup=loreStatement start="\<restore\>" end=";"
      \ contains=loreStray,loreNumber,loreComment,loreText,loreLocal,loreFlag,loreDump,loreHeld,loreNamed,loreEdge,loreBraces
syntax keyword loreDump    contained oem next nodes plan auto top bottom guide object end
syntax match   loreHeld    contained "\<label\_s\+\%([A-Za-z_][A-Za-z0-9_]*\|'\%([^'\\]\|\\.\)\+'\)" contains=loreLead
syntax match   loreEdge    contained "\<edge\_s\+&\d\+\_s\+\%([A-Za-z_][A-Za-z0-9_]*\|'\%([^'\\]\|\\.\)\+'\)" contains=loreLead,loreLocal
syntax match   loreNamed   contained "\<name\_s\+[A-Za-z_][A-Za-z0-9_]*" contains=loreLead
syntax match   loreLead    contained "\<\%(label\|edge\|name\)\_s\@="

highlight default link loreComment   Comment
highlight default link loreEscape    SpecialChar
highlight default link loreText      String
highlight default link loreQuoted    Identifier
highlight default link loreNumber    Number
highlight default link loreLocal     Special
highlight default link loreSign      Operator
highlight default link loreStatement Statement
highlight default link loreReserved  Keyword
highlight default link loreFlag      Boolean
highlight default link loreTruth     Boolean
highlight default link loreLogic     Keyword
highlight default link lorePathOf    Keyword
highlight default link loreMode      Keyword
highlight default link loreKept      Keyword
highlight default link loreDump      Keyword
highlight default link loreLead      Keyword
highlight default link loreLabel     Identifier
highlight default link loreMember    Identifier
highlight default link loreHeld      Identifier
highlight default link loreEdge      Identifier
highlight default link loreNamed     Normal
highlight default link loreWord      Normal
highlight default link loreStray     Error

let b:current_syntax = "lore"
