/* Block B0 is on page 4 of data memory, block B1 on page 6. */
MEMORY
{
    PAGE 0: VECTORS : origin = 0,    length = 20h
            PROGRAM : origin = 20h,  length = 0FE0h
    PAGE 1: B0      : origin = 200h, length = 100h
            B1      : origin = 300h, length = 100h
}
SECTIONS
{
    vectors : > VECTORS
    .text   : > PROGRAM
    first   : > B0 PAGE 1
    .bss    : > B1 PAGE 1
}
