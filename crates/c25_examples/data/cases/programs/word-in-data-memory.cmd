SECTIONS { .text : load = 20h PAGE 1 } MEMORY { PAGE 1 : D : o = 0, l = 100h }
