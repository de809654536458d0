SECTIONS { vectors : > 0 }
