" configure.ac keeps its own file type, which Vim has set by then.
autocmd BufNewFile,BufRead *.ac setfiletype ac
