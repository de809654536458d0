SECTIONS { hi : > 0FFFFh }
