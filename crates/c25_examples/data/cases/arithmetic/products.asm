* Products have signs. MPYA adds the product that was there.
        LALK    -1
        SACL    60h
        LACK    2
        SACL    61h
        LT      60h
        MPY     61h             ; -1 by 2: FFFFFFFEh
        LALK    8000h
        SACL    60h
        LT      60h
        MPY     60h             ; the lowest word by itself: 40000000h
        LACK    5
        SACL    60h
        LT      60h
        MPYK    1
        LT      61h
        LACK    3
        SACL    60h
        ZAC
        MPYA    60h             ; 5 in the accumulator, and 2 by 3
