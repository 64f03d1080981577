" Vim compiler file: `:make` checks a STAPL program, and the line of a refusal is an entry of the quickfix list.
if exists("current_compiler")
  finish
endif
let current_compiler = "stapl"

" The first line names the file, since a refusal does not; the number of an entry is that of the piece.
CompilerSet makeprg=(echo\ '['%:S']';\ zanutero\ check\ program=%:S)
CompilerSet errorformat=%-P[%f],R\ program\ %n\ line\ %l\ %m
