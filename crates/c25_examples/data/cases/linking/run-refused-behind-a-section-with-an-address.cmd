SECTIONS { fast : run = 0 more : load = 0FFFFFh }
