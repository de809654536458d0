SECTIONS { none : load = 300h }
