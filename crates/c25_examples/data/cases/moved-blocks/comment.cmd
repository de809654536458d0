SECTIONS
{
  .bss : /* 350h */ load = 350h PAGE 1
}
