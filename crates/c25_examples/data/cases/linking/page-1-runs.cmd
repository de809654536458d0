SECTIONS { fast : PAGE 1 run = 0FF00h }
