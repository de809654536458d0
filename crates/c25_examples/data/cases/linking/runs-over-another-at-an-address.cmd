SECTIONS { a : run = 0FF00h b : load = 40h, run = 0FF00h }
