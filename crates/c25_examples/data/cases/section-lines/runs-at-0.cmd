
SECTIONS { b : .text : > 0 run = 0 }
