MEMORY { A: o=0, l=2 A: o=1, l=2 }
