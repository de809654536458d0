 NOP

 B X
