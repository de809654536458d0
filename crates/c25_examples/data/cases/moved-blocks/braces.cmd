MEMORY
{
  PAGE 0 : ROM : origin = 0, length = 1000h
  PAGE 1 : RAM : origin = 340h, length = 100h
}
SECTIONS
{
  .text : > ROM
  .bss :
  {
    *(.bss)
  } > 848 PAGE 1
}
