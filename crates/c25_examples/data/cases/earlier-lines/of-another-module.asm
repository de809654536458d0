N .set 5
 NOP
