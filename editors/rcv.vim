" Vim syntax file: inputs of rcv, which are a protocol, scripts and a plan
" Put it into ~/.vim/syntax, and `au BufRead,BufNewFile *.rcv setfiletype rcv` into your vimrc.

if exists("b:current_syntax")
  finish
endif

" The three parts have words of their own. A line that begins a part ends the one before it, also inside a comment.
syn region rcvProtocol start=/\%^/ end=/^%% \(scripts\|plan\|journal\)\r\?$/me=s-1 keepend contains=@rcvAny,rcvWord,rcvType,rcvText
syn region rcvScripts matchgroup=rcvPart start=/^%% scripts\r\?$/ end=/^%% \(plan\|journal\)\r\?$/me=s-1 keepend contains=@rcvAny,rcvScriptWord,rcvScriptValue,rcvOperator
syn region rcvPlan matchgroup=rcvPart start=/^%% plan\r\?$/ end=/^%% journal\r\?$/me=s-1 keepend contains=@rcvAny,rcvPlanWord
syn region rcvJournal matchgroup=rcvPart start=/^%% journal\r\?$/ end=/\%$/ contains=rcvEntry,rcvStamp,rcvNumber

syn cluster rcvAny contains=rcvComment,rcvNumber

syn match rcvComment "//.*$" contained contains=@Spell
syn region rcvComment start="/\*" end="\*/" contained contains=@Spell
syn match rcvNumber /\<[0-9]\+\>/ contained

syn keyword rcvWord module global protocol role from to choice at or rec continue contained
syn keyword rcvWord par and do contained
syn keyword rcvType type data as contained
syn region rcvText start=/"/ end=/"/ oneline contained

syn keyword rcvScriptWord role var send pick when on set contained
syn keyword rcvScriptValue value attempt contained
syn match rcvOperator /<=\|>=\|==\|!=\|[-+*<>=]/ contained

syn keyword rcvPlanWord every crash limit room host contained

syn match rcvEntry /^\(send\|recv\|crash\|recover\|role\|completed\|limited\)\>/ contained
syn match rcvStamp /[@<][0-9]\+/ contained

hi def link rcvPart PreProc
hi def link rcvComment Comment
hi def link rcvNumber Number
hi def link rcvText String
hi def link rcvWord Statement
hi def link rcvType Type
hi def link rcvScriptWord Statement
hi def link rcvScriptValue Identifier
hi def link rcvOperator Operator
hi def link rcvPlanWord Statement
hi def link rcvEntry Statement
hi def link rcvStamp Constant

syn sync fromstart
let b:current_syntax = "rcv"
