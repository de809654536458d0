SECTIONS { b : > 300h c : > 303h .text : > 2FFh }
