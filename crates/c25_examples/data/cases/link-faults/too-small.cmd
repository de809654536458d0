MEMORY { PAGE 0 : P : o = 0, l = 1 }
SECTIONS { .text : > P .data : > TABLE }
