MEMORY { PAGE 1 : A (SECTIONS) : o = 300h, l = 16
         .text : o = 400h, l = 16 }
