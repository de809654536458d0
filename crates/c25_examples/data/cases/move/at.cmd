MEMORY
{
  PAGE 0: ROM : origin = 0, length = 100h
}
