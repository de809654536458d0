SECTIONS { b : > 4 .text : > 3 }
