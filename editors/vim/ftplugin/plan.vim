setlocal comments=:# commentstring=#\ %s
