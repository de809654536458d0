SECTIONS { .text : load = 4 p : load = 2 d : PAGE 1 }
