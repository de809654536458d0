SECTIONS { at20 : {} load = 20h, fill = 0FFFFh }
