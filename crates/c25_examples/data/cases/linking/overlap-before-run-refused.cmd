SECTIONS { b : load = 40h a : load = 41h, run = 0 }
