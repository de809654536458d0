SECTIONS { b : run = 0FF00h a : run = 0FF01h }
