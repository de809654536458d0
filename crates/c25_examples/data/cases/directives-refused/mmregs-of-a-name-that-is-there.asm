DXR NOP
 .mmregs
