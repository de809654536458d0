SECTIONS {
 run : load = 40h }
