X       .usect  "v",1
        LDPK    X               ; the page of X
        LAC     X               ; direct
        LAC     0385h           ; direct: the low seven bits
        LAC     *               ; indirect
        LAC     *BR0+,0,AR3     ; next register 3
        ADD     *+,AR3          ; shift 3, no next register
        MPY     *-,AR2          ; no shift in MPY: next register 2
