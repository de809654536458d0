SECTIONS { fast : run = 0 more : > NO }
