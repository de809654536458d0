 .else 1
