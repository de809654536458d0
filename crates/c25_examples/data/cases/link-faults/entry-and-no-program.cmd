-e MAIN
MEMORY { PAGE 1 : D : o = 300h, l = 10h }
