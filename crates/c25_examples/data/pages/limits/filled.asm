        .sect   "at20"
        LACK    7Fh
        .sect   "fill"          ; up to 27h
        .loop   7
        .word   0FFFFh
        .endloop
