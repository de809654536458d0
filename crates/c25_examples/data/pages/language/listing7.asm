        LACK    1
        .data
A       .word   10,20
        .sect   "vectors"
        B       A
        .text
        LACK    2               ; goes on at 0001
        .data
        .word   30              ; goes on at 0002
