SECTIONS { fast : load = 1A0h, run = 0FF90h }
