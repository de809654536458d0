* Shifts put what goes out into the carry, SFR with the sign under SXM 1 alone; rotations go through the carry.
        .copy   "set.inc"
        RC
        SETACC  8000h,1
        SFL                     ; 00000002h
        RC
        SETACC  8000h,1
        SFR                     ; C0000000h
        RC
        RSXM
        SETACC  8000h,1
        SFR                     ; 40000000h
        SC
        SETACC  8000h,0
        ROL                     ; 00000001h
        SETACC  0,1
        ROR                     ; 80000000h
        RC
        SETACC  8000h,0
        ROL                     ; 0
        SETACC  4000h,0
        ROL                     ; 80000001h, no carry
