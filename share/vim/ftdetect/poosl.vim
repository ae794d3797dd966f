autocmd BufNewFile,BufRead *.poosl setfiletype poosl
