SECTIONS { b : > 4 c : > 0 PAGE 1 .text : > 3 } MEMORY { P : o = 0, l = 16 }
