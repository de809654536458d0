SECTIONS { fast : run = 0FFFFh }
