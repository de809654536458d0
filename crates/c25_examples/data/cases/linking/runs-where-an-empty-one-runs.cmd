SECTIONS { a : run = 0FF01h b : run = 0FF00h }
