 .word 0CA41h
