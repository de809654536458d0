MEMORY
{
  PAGE 0 : PROG : origin = 20h  length = 100h
  PAGE 1 : DATA : origin = 300h length = 100h
}
SECTIONS
{
  .data : > DATA
}
