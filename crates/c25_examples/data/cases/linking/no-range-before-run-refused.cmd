SECTIONS { fast : > NO, run = 0 }
