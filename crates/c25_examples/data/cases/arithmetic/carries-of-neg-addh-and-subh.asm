* NEG of 0 sets the carry. A sum of high words leaves a carry that is set, a difference one that is not.
        RC
        ZAC
        NEG                     ; 0, the carry
        LACK    1
        SACL    62h
        ZAC
        ADDH    62h             ; 00010000h, the carry
        RC
        SUBH    62h             ; 0, none
