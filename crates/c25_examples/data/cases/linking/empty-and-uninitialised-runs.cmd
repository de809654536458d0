SECTIONS { fast : PAGE 0 run = 0FF00h }
