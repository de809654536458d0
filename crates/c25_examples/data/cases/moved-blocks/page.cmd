SECTIONS
{
  .bss : > 0x300 PAGE 1
}
