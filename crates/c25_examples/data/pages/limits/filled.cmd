SECTIONS
{
   at20 : load = 20h            /* one word */
   fill : load = 21h
}
