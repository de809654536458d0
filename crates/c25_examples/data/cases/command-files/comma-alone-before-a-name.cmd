SECTIONS {
 fast : load = 40h, ,
 .text : }
