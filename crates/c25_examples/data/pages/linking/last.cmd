SECTIONS { .text : fast : PAGE 0, run = 0FFF9h }
