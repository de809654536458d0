SECTIONS { .text : > NONE }
