" Vim syntax of rvdyn's scripts and transcripts: copy share/vim into ~/.vim.
if exists('b:current_syntax')
  finish
endif

syntax case ignore
syntax match rvdynComment /^#.*/
syntax match rvdynPhase /^--\( [012]\)\?$/
" What is no line of a script.
syntax match rvdynWrong /^\([1-8] \|#\|--\( [012]\)\?$\|= \|$\)\@!.*/
syntax match rvdynCall /^[1-8] .*/ contains=rvdynSession,rvdynKeyword,rvdynKind,rvdynNumber,rvdynText,rvdynSymbol
syntax keyword rvdynKeyword contained AND BEGIN BETWEEN BY CLOSE COMMIT CREATE DELETE FAST FETCH FIRST FOR FROM IN INDEX INSERT INTO IS NOT
syntax keyword rvdynKeyword contained NULL ON ONLY OPEN OPTIMIZE OR ORDER READ ROLLBACK SELECT SET SHOW STARTING STEP TABLE TIME TOTAL UNIQUE
syntax keyword rvdynKeyword contained UPDATE VALUES WHERE WITH
syntax keyword rvdynKind contained BIGINT VARCHAR
syntax match rvdynNumber /-\?\<[0-9]\+\>/ contained
syntax match rvdynSession /^[1-8]/ contained
syntax region rvdynText start=/'/ skip=/''/ end=/'/ oneline contained
syntax match rvdynSymbol /<>\|<=\|>=\|[(),.*;=<>]/ contained
" The replies of a transcript: rows, traces, and what is refused.
syntax case match
syntax match rvdynReply /^= .*/ contains=rvdynText,rvdynNumber
syntax match rvdynTrace /^= trace .*/
syntax match rvdynRefused /^= \(syntax\|limit\|unknown\|exists\|kind\|no transaction\|active\|busy\|read only\|no cursor\|cursor open\|changed\|held\|duplicate\).*/

highlight default link rvdynComment Comment
highlight default link rvdynPhase PreProc
highlight default link rvdynWrong Error
highlight default link rvdynSession Label
highlight default link rvdynKeyword Keyword
highlight default link rvdynKind Type
highlight default link rvdynNumber Number
highlight default link rvdynText String
highlight default link rvdynSymbol Operator
highlight default link rvdynReply Identifier
highlight default link rvdynTrace Special
highlight default link rvdynRefused WarningMsg

let b:current_syntax = 'rvdyn'
