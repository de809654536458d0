SECTIONS { a : run = 0FF00h b : run = 0FF02h }
