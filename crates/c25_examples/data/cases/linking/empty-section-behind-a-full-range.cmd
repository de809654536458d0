MEMORY { P : o = 8, l = 1 }
