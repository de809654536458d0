SECTIONS { .text : fast : { *(fast) } run = 0FF00h }
