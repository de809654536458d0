MEMORY
{
  PAGE 0: LOW : origin = 0,      length = 10h
          B0  : origin = 0FF00h, length = 100h
  PAGE 1: RAM : origin = 300h,   length = 4
}
SECTIONS { fast : > 0FF80h, run = 0FF80h }
