MEMORY { PAGE 0: P: o = 0, l = 1000h PAGE 1: D: o = 385h, l = 10h }
