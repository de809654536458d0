SECTIONS { .text : > 0 }
