autocmd BufNewFile,BufRead *.unit setfiletype pounit
autocmd BufNewFile,BufRead *.desc setfiletype podesc
