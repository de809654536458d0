MEMORY { P : o = 0, l = 100h PAGE 1 : D : o = 300h, l = 100h } SECTIONS { fast : > D, run = 0FF00h }
