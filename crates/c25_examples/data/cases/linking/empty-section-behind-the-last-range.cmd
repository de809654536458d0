SECTIONS { e : > 32 } MEMORY { P : o = 0, l = 32 }
