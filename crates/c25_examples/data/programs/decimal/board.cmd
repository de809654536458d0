/* A board with two memories: program in an EPROM on page 0, data on page 1 in the chip's blocks B2 and B1 and in a
   memory outside, whose first words stand there before the program runs. */
-e START
MEMORY
{
    PAGE 0: VECTORS (R) : origin = 0,      length = 20h
            EPROM   (R) : origin = 20h,    length = 0FE0h
    PAGE 1: B2 (RW)     : origin = 60h,    length = 20h
            B1 (RW)     : origin = 300h,   length = 100h
            OUTSIDE (R) : origin = 0x1000, length = 0x1000
}
SECTIONS
{
    vectors : { *(vectors) } > VECTORS
    .text   : { *(.text) }   > EPROM
    .data   : { *(.data) }   > OUTSIDE PAGE 1
    .bss    : { *(.bss) }    > B2 PAGE 1
}
