" Sources are *.asm and *.inc, or what g:c25files says: let g:c25files = '*/dsp/*.asm', before "filetype on".
" Vim has taken *.asm for another assembler before this line, and loaded its settings.
execute 'autocmd BufRead,BufNewFile' get(g:, 'c25files', '*.asm,*.inc') 'unlet! b:did_ftplugin | set filetype=c25'
