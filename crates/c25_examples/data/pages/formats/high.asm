        .word   1,2,3,4,5,6,7,8,9
        .sect   "high"
        .word   1234h
        .sect   "edge"
        .word   7FFFh,8000h
