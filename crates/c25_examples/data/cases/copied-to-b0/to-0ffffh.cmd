SECTIONS { fast : load = 40h run = 0FFFFh }
