SECTIONS { fast : load = 400h PAGE 1, run = 0FF00h }
