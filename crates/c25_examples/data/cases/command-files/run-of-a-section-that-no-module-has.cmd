SECTIONS { other : run = 0 fast : load = 40h, run = 0FF00h }
