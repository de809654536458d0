/* two objects */
main.obj
-e START
MEMORY { PAGE 0: ROM : origin = 0, length = 100h }
SECTIONS
{
  .text : { main.obj(.text) } > ROM
  more  : { last.obj(.text) } > ROM
  UNION { a : b : }
  size = 5;
}
