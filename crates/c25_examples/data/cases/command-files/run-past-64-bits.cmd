SECTIONS { fast : load = 40h, run = 0x10000000000000FF00 }
