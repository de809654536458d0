MEMORY { P : o = 0, l = 100h } SECTIONS { .text : fast : > P, run = 0FF00h }
