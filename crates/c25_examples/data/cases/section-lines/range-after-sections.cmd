SECTIONS { b : > .text PAGE 1 }
MEMORY { PAGE 1 : .text : o = 300h, l = 16 }
