MEMORY { ROM : o = 0, l = 16 }
SECTIONS { .text : > ROM PAGE 1 }
