X NOP
 .label X
