 .bss AR0,1
