SECTIONS { .text : fast : PAGE 0 run = 0FF00H }
