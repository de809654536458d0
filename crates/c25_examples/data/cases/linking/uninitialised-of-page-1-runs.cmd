SECTIONS { fast : run = 0FF00h }
