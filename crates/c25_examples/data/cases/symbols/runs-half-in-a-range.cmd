MEMORY
{
  PAGE 0: LOW  : origin = 0,      length = 20h
          HALF : origin = 0FF81h, length = 10h
  PAGE 1: RAM  : origin = 300h,   length = 4
}
SECTIONS { fast : > LOW, run = 0FF80h }
