SECTIONS { fast : load = 0FF00h, run = 0FF00h }
