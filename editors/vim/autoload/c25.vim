" Places of faults that are printed without a file: command:LINE, schedule:LINE, samples:LINE, script:LINE, hex:LINE, stdin:LINE,
" link:NAME and FILE: 8 CannotRead.

" The words of the commands that were run before a line of the list: those of the lines that call c25, and of 'makeprg'.
function! s:Words(items, index) abort
  let commands = [expandcmd(&makeprg)]
  for item in a:items[:a:index]
    if !item.valid && item.text =~# '\<c25\S*\s'
      call add(commands, item.text)
    endif
  endfor
  return map(split(join(commands)), {_, word -> substitute(word, '^[''"]\|[''"]$', '', 'g')})
endfunction

" The last argument of an option, of the word of a subcommand, or of '<'.
function! s:Argument(words, names) abort
  for index in reverse(range(len(a:words)))
    let [name; rest] = split(a:words[index], '=', 1)
    if index(a:names, name) >= 0
      return empty(rest) ? get(a:words, index + 1, '') : join(rest, '=')
    endif
  endfor
  return ''
endfunction

" The words before which the file of a fault without a file stands on the command line, by the number of the fault.
function! s:Names(number) abort
  if a:number >= 60 && a:number < 80
    return ['--command', 'link']
  elseif a:number >= 80 && a:number < 90
    return ['dis']
  endif
  return get({90: ['--schedule'], 91: ['--samples'], 95: ['--script']}, a:number, ['<'])
endfunction

" A file as make sees it in the folder that it entered last before a line of the list, if there is one.
function! s:Seen(items, index, file) abort
  let folder = ''
  for item in a:items[:a:index]
    let entered = matchstr(item.text, "Entering directory [`']\\zs.*\\ze'$")
    let folder = empty(entered) ? folder : entered . '/'
  endfor
  return a:file =~# '^/' ? a:file : folder . a:file
endfunction

" The first line that has a name outside comments, in the command file and then in the other files of the command line.
function! s:Naming(items, index, words) abort
  let name = a:items[a:index].module
  let pattern = '\C\%(^\|[^0-9A-Za-z_$.]\)\V' . escape(name, '\') . '\m\%([^0-9A-Za-z_$]\|$\)'
  for word in [s:Argument(a:words, ['--command', 'link'])] + a:words
    let file = s:Seen(a:items, a:index, word)
    if filereadable(file) && word !=# name
      let lines = readfile(file)
      for number in range(1, len(lines))
        if lines[number - 1] !~# '^[*;]' && substitute(lines[number - 1], ';.*', '', '') =~# pattern
          return {'filename': file, 'lnum': number}
        endif
      endfor
    endif
  endfor
  return {}
endfunction

" What --explain prints in the line after the fault: its file and line; and the column, in the line after that. The line
" after may also be one of make: so the line or the file is that of the fault, or the fault names a section and has neither.
function! s:Explained(items, index) abort
  let line = matchlist(get(a:items, a:index + 1, {'text': ''}).text, '^\(.\{-1,}\):\(\d\+\): ')
  let item = a:items[a:index]
  if empty(line) || !filereadable(s:Seen(a:items, a:index, line[1]))
        \ || line[2] != item.lnum && line[1] !=# item.module && index([72, 73, 74, 75, 78], item.nr) < 0
    return {}
  endif
  let column = matchstr(get(a:items, a:index + 2, {'text': ''}).text, '^\V' . escape(line[1], '\') . '\m:\d\+: column \zs\d\+')
  let place = {'filename': s:Seen(a:items, a:index, line[1]), 'lnum': str2nr(line[2])}
  return extend(place, empty(column) ? {} : {'col': str2nr(column)})
endfunction

function! s:Place(items, index) abort
  let item = a:items[a:index]
  let place = s:Explained(a:items, a:index)
  if !empty(place)
    return place
  endif
  let words = s:Words(a:items, a:index)
  let file = s:Seen(a:items, a:index, item.module !=# '' ? item.module : s:Argument(words, s:Names(item.nr)))
  if item.nr == 8 && filereadable(file)
    return {'filename': file, 'lnum': 1}
  elseif item.module !=# ''
    return s:Naming(a:items, a:index, words)
  endif
  return item.lnum && filereadable(file) ? {'filename': file} : {}
endfunction

" Gives a place to each fault of the quickfix list that has none.
function! c25#AddPlaces() abort
  if get(b:, 'current_compiler', get(g:, 'current_compiler', '')) !=# 'c25'
    return
  endif
  let items = getqflist()
  let placed = 0
  for index in range(len(items))
    let place = items[index].valid && !items[index].bufnr ? s:Place(items, index) : {}
    if !empty(place)
      call remove(items[index], 'bufnr')
      call extend(items[index], place)
      let placed = 1
    endif
  endfor
  if placed
    call setqflist([], 'r', {'items': items})
    call setqflist([], 'r', {'idx': index(map(copy(items), 'v:val.valid'), 1) + 1})
  endif
endfunction
