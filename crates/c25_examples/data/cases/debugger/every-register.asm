* Gives each register a value of its own, and then repeats an instruction at 20h.
        LARK    AR1,1
        LARK    AR2,2
        LARK    AR3,3
        LARK    AR4,4
        LARK    AR5,5
        LARK    AR6,6
        LRLK    AR7,0FFFFh
        LALK    5678h
        SACL    60h
        LALK    1234h
        SACL    61h
        LALK    0ABCDh
        SACL    62h
        LT      60h
        MPYK    1
        LPH     61h             ; P: 12345678h
        LT      62h
        LACK    8
        PUSH                    ; the lowest word of the stack
        ZAC
        RPTK    5
        PUSH
        LACK    7
        PUSH                    ; the highest
        LALK    -2
        RC
        RPTK    10
        NOP
