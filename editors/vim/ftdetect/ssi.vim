" Layouts and scripts of ssi. Vim itself takes files of this ending for SiSU documents, so its choice is undone.
autocmd BufRead,BufNewFile *.ssi set filetype=ssi
