" Refal-0 tables are recognised by their ending.
autocmd BufRead,BufNewFile *.rf setfiletype refal0
