" :make for c25. It runs make where there is a Makefile, what g:c25make says where that is set, as
" let g:c25make = 'build main.asm fir.asm --command fir.cmd --out fir --explain', and else assembles this file alone.
if exists('current_compiler')
  finish
endif
let current_compiler = 'c25'

let s:cpo_save = &cpo
set cpo&vim

if exists('g:c25make')
  execute 'CompilerSet makeprg=' . escape('c25 ' . g:c25make, ' |"\')
elseif filereadable('Makefile') || filereadable('makefile')
  CompilerSet makeprg=make
else
  CompilerSet makeprg=c25\ asm\ %:S\ --obj\ /dev/null\ --explain
endif

" The faults without a file of their own; those of a line; what --explain prints of how a line was reached; the faults of
" a file; the instructions of `run --regs` and of a debugger's answers. The name of a fault is a capital and small letters,
" which a line that --explain shows is not.
CompilerSet errorformat=
      \%Ecommand:%l:\ %n\ %m,
      \%Eschedule:%l:\ %n\ %m,
      \%Esamples:%l:\ %n\ %m,
      \%Escript:%l:\ %n\ %m,
      \%Ehex:%l:\ %n\ %m,
      \%Estdin:%l:\ %n\ %m,
      \%Elink:%o:\ %n\ %m,
      \%Ememory:\ %n\ %m,
      \%Estdout:\ %n\ %m,
      \%E%f:%l:\ %n\ %\\%%(%\\u%\\l%\\)%\\@=%m,
      \%I\ \ from\ %f:%l:\ %m,
      \%E%o:\ %n\ %\\%%(%\\u%\\l%\\)%\\@=%m,
      \%I%*\\x\ %.%#\ %f:%l,
      \%D%*\\a:\ Entering\ directory\ %*[`']%f',
      \%X%*\\a:\ Leaving\ directory\ %*[`']%f',
      \%D%*\\a[%*\\d]:\ Entering\ directory\ %*[`']%f',
      \%X%*\\a[%*\\d]:\ Leaving\ directory\ %*[`']%f'

" Faults that name no file get the place that the command line gives.
augroup c25_places
  autocmd!
  autocmd QuickFixCmdPost make,cfile,cgetfile call c25#AddPlaces()
augroup END

let &cpo = s:cpo_save
unlet s:cpo_save
