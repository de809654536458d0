SECTIONS { .bss : > 301h PAGE 1 b : > 301h .text : > 300h PAGE 1 c : > 303h }
