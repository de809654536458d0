MEMORY
{
  PAGE 0: LOW  : origin = 0,      length = 10h
          ROM  : origin = 20h,    length = 20h
          TOP  : origin = 0FF00h, length = 100h
  PAGE 1: RAM  : origin = 300h,   length = 8
          FREE : origin = 400h,   length = 10h
}
SECTIONS
{
  last  : > 0FFFFh
  .text : > LOW
  fast  : > ROM, run = 0FF80h
  vars  : > RAM
  .bss  : > RAM
}
