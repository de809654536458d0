-e T
SECTIONS { fast : load = 0C0h, run = 0FF00h, }
