MEMORY { P : o = 0, l = 10h }
