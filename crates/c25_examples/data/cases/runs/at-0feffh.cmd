SECTIONS { hi : load = 0FEFFh }
