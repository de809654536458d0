MEMORY
{
  PAGE 0: ROM    (R)  : o = 0,    l = 1000h
  PAGE 1: PAGE4  (RW) : o = 200h, l = 80h
          TABLES (RW) : o = 400h, l = 100h
}
SECTIONS
{
  .text : { *(.text) } > ROM
  .data : > ROM
  delay : load = 210h PAGE 1
  vars  : > PAGE4
  gain  : > TABLES
}
