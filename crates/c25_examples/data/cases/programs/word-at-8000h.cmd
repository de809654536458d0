SECTIONS { .text : load = 8000h }
