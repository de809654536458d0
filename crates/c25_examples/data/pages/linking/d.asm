 .space 17*16
