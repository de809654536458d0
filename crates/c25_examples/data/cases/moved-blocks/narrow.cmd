MEMORY
{
  PAGE 0 : ROM : origin = 0, length = 1000h
  PAGE 1 : RAM : origin = 340h, length = 80h
}
SECTIONS
{
  .text : > ROM
  .bss : load = 0x350 PAGE 1
}
