SECTIONS {
 fast : run = 0FF00h
 load = 40h }
