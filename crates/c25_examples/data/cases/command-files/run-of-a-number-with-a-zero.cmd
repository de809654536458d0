SECTIONS {
 fast : load = 40h, run =
 065280 }
