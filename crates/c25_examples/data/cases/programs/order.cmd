MEMORY { A: o=0, l=2 B: o=1, l=2 }
