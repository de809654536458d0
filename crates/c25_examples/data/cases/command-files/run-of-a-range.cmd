MEMORY { B : o = 0FF00h, l = 100h }
SECTIONS { fast : load = 40h, run =
 B }
