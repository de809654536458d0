SECTIONS { .text : fast : run = 0FF80h }
