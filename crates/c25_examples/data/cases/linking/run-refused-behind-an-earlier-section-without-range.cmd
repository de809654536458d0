SECTIONS { more : > NO fast : run = 0 }
