au BufRead,BufNewFile *.seuss setfiletype seuss
