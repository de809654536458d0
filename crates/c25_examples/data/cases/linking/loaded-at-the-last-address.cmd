SECTIONS { fast : load = 0FFFFh, run = 0FF00h }
