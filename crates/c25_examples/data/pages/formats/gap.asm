        .word   0FF80h,3
        .sect   "three"
        .word   0CA05h
