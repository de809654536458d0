-e START
MEMORY
{
  PAGE 0: VECS : origin = 0,    length = 20h
          PROG : origin = 20h,  length = 0FE0h
  PAGE 1: VARS : origin = 300h, length = 80h
}
SECTIONS
{
  vectors : > VECS
  .text   : > PROG
  .bss    : > VARS
}
