SECTIONS { fast : run = 0FFFAh }
