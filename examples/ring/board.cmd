/* The vectors stand at 0 and the program behind them, the variables in block B2, which is on page 0, and the ring in
   block B1. */
MEMORY
{
    PAGE 0: VECTORS : origin = 0,    length = 20h
            PROGRAM : origin = 20h,  length = 0FE0h
    PAGE 1: B2      : origin = 60h,  length = 20h
            B1      : origin = 300h, length = 100h
}
SECTIONS
{
    vectors : > VECTORS
    .text   : > PROGRAM
    .bss    : > B2
    ring    : load = 300h PAGE 1
}
