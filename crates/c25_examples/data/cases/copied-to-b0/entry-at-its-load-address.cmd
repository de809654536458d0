-e M
SECTIONS { fast : load = 0C0h, run = 0FF40h, }
