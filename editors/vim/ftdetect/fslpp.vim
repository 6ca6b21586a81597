au BufRead,BufNewFile *.fsl set filetype=fslpp
