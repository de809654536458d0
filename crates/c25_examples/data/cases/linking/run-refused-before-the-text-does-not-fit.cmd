MEMORY { P : o = 0, l = 100h Q : o = 200h, l = 1 } SECTIONS { fast : > P, run = 0 .text : > NO }
