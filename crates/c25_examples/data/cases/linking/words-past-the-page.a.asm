 .space 1048576
