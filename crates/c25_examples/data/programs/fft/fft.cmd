/* Data memory: the points at a multiple of 32. */
SECTIONS
{
    points : load = 300h PAGE 1
}
