SECTIONS { fast : run = 0FEFFh }
