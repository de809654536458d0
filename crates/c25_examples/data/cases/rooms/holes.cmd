MEMORY { ROM : o = 0, l = 10h }
SECTIONS { a : > 3
           b : > 8
           .text : > ROM
           c : > ROM }
