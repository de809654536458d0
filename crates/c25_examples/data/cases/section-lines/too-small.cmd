MEMORY { P : o = 0, l = 1 }
SECTIONS { .text : > P }
