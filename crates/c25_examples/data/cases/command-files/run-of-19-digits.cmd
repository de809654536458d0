SECTIONS { fast : load = 40h, run = 0x000000000000000ff00 }
