autocmd BufNewFile,BufRead *.session,*.policy set filetype=flaskd
