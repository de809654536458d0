MEMORY { P : o = 0, l = 16 }
