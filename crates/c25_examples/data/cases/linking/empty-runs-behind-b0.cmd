SECTIONS { fast : run = 10000h }
