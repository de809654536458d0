 .word 2405h
