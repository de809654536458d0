SECTIONS { fast : load = 40h, run = 0FF00h }
