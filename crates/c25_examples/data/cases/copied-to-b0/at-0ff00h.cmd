SECTIONS { fast : load = 0FF00h }
