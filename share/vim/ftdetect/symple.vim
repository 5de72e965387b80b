" Scripts of symple.
autocmd BufRead,BufNewFile *.symple setfiletype symple
