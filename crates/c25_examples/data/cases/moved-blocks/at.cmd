SECTIONS
{
  .bss : load = 350h PAGE 1
}
