SECTIONS { fast : run = 0 }
