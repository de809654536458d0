* Goes from 0 to 80h, and by FFFEh and FFFFh back to 0.
        .loop   128
        NOP
        .endloop
        B       HIGH
        .sect   "high"
HIGH    NOP
        NOP
