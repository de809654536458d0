SECTIONS { fast : > PROG, run = 0FF00h }
