 .space 528
