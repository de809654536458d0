SECTIONS
{
  .text :
  fast  : > PROG, run = 0FF00h
}
