SECTIONS { b : load = 44h, run = 0FF04h a : load = 40h, run = 0FF00h }
