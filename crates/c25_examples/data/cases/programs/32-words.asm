 .space 512
