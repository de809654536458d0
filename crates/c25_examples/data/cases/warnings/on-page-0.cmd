SECTIONS { .bss : > 300h }
