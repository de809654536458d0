/* .text : of a comment */
MEMORY { PAGE 0 : .text : o = 0, l = 16 }
SECTIONS { b : > .text
  .text /* its name */ : > ROM }
