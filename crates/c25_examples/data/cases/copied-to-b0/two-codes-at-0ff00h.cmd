SECTIONS { plain : load = 0FF00h fast : load = 40h, run = 0FF00h }
