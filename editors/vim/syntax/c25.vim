" Syntax of c25, the assembler for the TMS320C25: a label in column 1, then a mnemonic, a directive or the name of a
" macro, then operands. The names between the marked lines are put in by editors/make.py.
if exists('b:current_syntax')
  finish
endif

" A directive is one word with its point.
syntax iskeyword @,48-57,_,$,.

" [names]
syntax case ignore
syntax keyword c25Mnemonic contained ABS ADD ADDC ADDH ADDK ADDS ADDT ADLK ADRK AND ANDK APAC B BACC BANZ BBNZ BBZ BC
syntax keyword c25Mnemonic contained BGEZ BGZ BIOZ BIT BITT BLEZ BLKD BLKP BLZ BNC BNV BNZ BV BZ CALA CALL CMPL CMPR
syntax keyword c25Mnemonic contained CNFD CNFP DINT DMOV EINT FORT IDLE IN LAC LACK LACT LALK LAR LARK LARP LDP LDPK LPH
syntax keyword c25Mnemonic contained LRLK LST LST1 LT LTA LTD LTP LTS MAC MACD MAR MPY MPYA MPYK MPYS MPYU NEG NOP NORM
syntax keyword c25Mnemonic contained OR ORK OUT PAC POP POPD PSHD PUSH RC RET RFSM RHM ROL ROR ROVM RPT RPTK RSXM RTC
syntax keyword c25Mnemonic contained RTXM RXF SACH SACL SAR SBLK SBRK SC SFL SFR SFSM SHM SOVM SPAC SPH SPL SPM SQRA
syntax keyword c25Mnemonic contained SQRS SST SST1 SSXM STC STXM SUB SUBB SUBC SUBH SUBK SUBS SUBT SXF TBLR TBLW TRAP
syntax keyword c25Mnemonic contained XOR XORK ZAC ZALH ZALR ZALS
syntax keyword c25Directive contained .asg .break .bss .byte .copy .data .def .else .elseif .end .endif .endloop .endm
syntax keyword c25Directive contained .equ .eval .fclist .fcnolist .global .if .include .int .label .length .list .loop
syntax keyword c25Directive contained .macro .mexit .mlist .mmregs .mnolist .nolist .option .page .ref .sect .set .space
syntax keyword c25Directive contained .sslist .ssnolist .string .text .title .usect .width .word
syntax keyword c25Register AR0 AR1 AR2 AR3 AR4 AR5 AR6 AR7 PA0 PA1 PA2 PA3 PA4 PA5 PA6 PA7 PA8 PA9 PA10 PA11 PA12 PA13
syntax keyword c25Register PA14 PA15
syntax case match
syntax keyword c25Register DRR DXR TIM PRD IMR GREG
" [end]

" The label, or the blanks in front of a line without one; what stands there next is looked at as the second field.
syntax match c25Label "^[^ \t*;][^ \t;]*" nextgroup=c25Mnemonic,c25Directive,c25Call skipwhite
syntax match c25Begin "^\s\+" nextgroup=c25Mnemonic,c25Directive,c25Call
syntax match c25Call contained "[^ \t;.][^ \t;]*"

syntax match c25Number "\c\<\%(\d\+\|\d\x*h\|[0-7]\+q\|[01]\+b\)\>"
syntax match c25Indirect "\c\%([ \t,]\)\@1<=\*\%(BR0[+-]\|0[+-]\|[+-]\)\=\ze\s*\%([,;]\|$\)"
syntax match c25Substitution ":\h[0-9A-Za-z_$]*:"
syntax match c25String +"\%([^"]\|""\)*"+
syntax match c25String "'\%(''\|[^']\)'"
syntax match c25Comment ";.*$" contains=@Spell
syntax match c25Comment "^[*;].*$" contains=@Spell

highlight default link c25Label Identifier
highlight default link c25Mnemonic Statement
highlight default link c25Directive PreProc
highlight default link c25Call Macro
highlight default link c25Register Type
highlight default link c25Number Number
highlight default link c25Indirect Special
highlight default link c25Substitution Special
highlight default link c25String String
highlight default link c25Comment Comment

let b:current_syntax = 'c25'
