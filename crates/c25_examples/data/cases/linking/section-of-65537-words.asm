 .space 1048592
