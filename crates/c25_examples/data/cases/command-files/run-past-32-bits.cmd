SECTIONS { fast : load = 40h, run = 10000FF00h }
