" Vim takes *.cql for another language of that name, so a file is ours only where a line begins with cql( at its head.
autocmd BufRead,BufNewFile *.cql if match(getline(1, 50), '^\s*cql\s*(') >= 0 | set filetype=cql | endif
