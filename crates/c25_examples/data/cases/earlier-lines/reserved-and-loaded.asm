 .bss COUNT,2
 NOP
 .label COUNT
