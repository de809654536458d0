SECTIONS { v : > PROG }
