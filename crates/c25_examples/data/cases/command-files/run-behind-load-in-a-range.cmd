MEMORY { P : o = 0, l = 100h } SECTIONS { .text : fast : { } load > P PAGE 0 run = 0FF00h, }
