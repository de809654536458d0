 .space 1,2
