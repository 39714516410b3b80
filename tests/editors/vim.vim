" Compares Vim's groups with the kinds of the tokens: REFAL0_KINDS names the file of kinds, REFAL0_FOUND where what
" differs is written.
let s:groups = {
  \ 'comment': ['refal0Comment'], 'string': ['refal0String', 'refal0Escape'], 'variable': ['refal0Variable'],
  \ 'declared': ['refal0Declared'], 'called': ['refal0Called'], 'emission': ['refal0Emission'],
  \ 'predicate': ['refal0Predicate'], 'angles': ['refal0Angles'], 'bracket': ['refal0Bracket'],
  \ 'mark': ['refal0Mark', 'refal0Open', 'refal0Semicolon'] }
let s:found = []
let s:count = 0
for s:entry in readfile($REFAL0_KINDS)
  let [s:line, s:first, s:last, s:kind] = split(s:entry)
  for s:column in range(s:first, s:last)
    let s:group = synIDattr(synID(s:line, s:column, 0), 'name')
    let s:count += 1
    if index(s:groups[s:kind], s:group) < 0
      call add(s:found, 'line ' . s:line . ', column ' . s:column . ': ' . s:kind . ' is ' . s:group)
    endif
  endfor
endfor
call writefile(s:found + [s:count . ' bytes'], $REFAL0_FOUND)
quitall!
