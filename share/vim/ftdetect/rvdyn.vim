" Scripts and transcripts of rvdyn.
autocmd BufRead,BufNewFile *.rvdyn,*.transcript setfiletype rvdyn
" A script without an ending: a call of a session in one of the first lines, behind comments.
autocmd BufRead * if !did_filetype() && expand('%:e') ==# '' && getline(nextnonblank(1)) =~# '^\(#\|[1-8] \)' && match(getline(1, 40), '^[1-8] \c\(CREATE\|BEGIN\)\>') >= 0 | setfiletype rvdyn | endif
