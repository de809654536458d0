-e START
MEMORY
{
   PAGE 0 : EPROM (R)  : origin = 0000h, length = 1000h
   PAGE 1 : RAM   (RW) : origin = 0300h, length = 0080h
}
SECTIONS
{
   vectors : { *(vectors) } load = 0 PAGE 0
   .text   : { *(.text) } > EPROM PAGE 0
   .bss    : {} > RAM PAGE 1
   .coeff  : {} > EPROM PAGE 0      /* the program copies it to COEFFS, in .bss */
}
