MEMORY { ROM : o = 20h, l = 1 }
SECTIONS { .text : > ROM
           t : > ROM }
