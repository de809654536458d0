MEMORY { P : o = 16, l = 16 } SECTIONS { .text : > 30 }
