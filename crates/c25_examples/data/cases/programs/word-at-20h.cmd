SECTIONS { .text : load = 20h }
