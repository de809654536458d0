SECTIONS {
 fast : load = 40h,
 PAGE 0 run = 0FF00h }
