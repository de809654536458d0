SECTIONS { .text : > 10h }
