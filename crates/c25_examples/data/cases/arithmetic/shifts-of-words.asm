* A word is shifted with its sign under SXM 1 alone, the constant of ORK always without.
        LALK    0FFFFh
        SACL    60h
        LAC     60h,4           ; FFFFFFF0h
        RSXM
        LAC     60h,4           ; 000FFFF0h
        SSXM
        ZAC
        ORK     3,15            ; 00018000h
        ZAC
        ORK     0FFFFh,4        ; 000FFFF0h
