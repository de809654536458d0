N .set 1
M .set 2
N .equ 1
