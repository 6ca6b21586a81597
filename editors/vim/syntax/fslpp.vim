" The syntax of fslpp programs; tools/write_editors.py writes this file.
if exists("b:current_syntax")
  finish
endif

syn match fslppName /\v[[:alpha:]_]\w*/
syn match fslppNumber /\v[0-9]+/
syn match fslppSymbol /\V\%(&*&\||->\|!=\|<=\|==\|>=\|(\|)\|*\|+\|,\|-\|;\|<\|=\|>\|?\|[\|]\|{\|}\)/
syn match fslppSymbol /\v<_>/
syn match fslppComment /\/\/.*$/

syn keyword fslppDeclaration proc inv of pred requires ensures bank
syn keyword fslppControl if else while return call par
syn keyword fslppStatement let store load free fence alloc assert print cas fetch_add exchange with mint burn
syn keyword fslppMode na rlx acq rel acqrel rmw
syn keyword fslppAssertion Acq Auth Init Rel RmwAcq Tok up down
syn keyword fslppConstant true false emp
syn keyword fslppResult result

hi def link fslppDeclaration Structure
hi def link fslppControl Conditional
hi def link fslppStatement Statement
hi def link fslppMode StorageClass
hi def link fslppAssertion Type
hi def link fslppConstant Constant
hi def link fslppResult Identifier
hi def link fslppNumber Number
hi def link fslppSymbol Operator
hi def link fslppComment Comment

let b:current_syntax = "fslpp"
