SECTIONS {
 fast : load = 40h, run
