SECTIONS { fast : load = 40h, run =
 00000000000000065280 }
