MEMORY { A: o=0, l=0 }
