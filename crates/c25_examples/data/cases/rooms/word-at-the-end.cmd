MEMORY { PROG : o = 0, l = 100h
         PAGE 1 : D : o = 300h, l = 228 }
SECTIONS { w : > 3E3h PAGE 1 }
