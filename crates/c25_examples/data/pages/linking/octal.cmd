MEMORY { P : o = 010, l = 10h }
