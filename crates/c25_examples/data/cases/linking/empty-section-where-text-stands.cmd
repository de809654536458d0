SECTIONS { e : > 0 }
