SECTIONS { .text : fast : Run=0FF00h }
