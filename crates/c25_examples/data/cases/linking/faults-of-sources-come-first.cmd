SECTIONS { b : > 0 }
