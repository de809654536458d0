SECTIONS { .text : > 7FF8h }
