* PM hands -64 on as it stands, by 1 and by 4 to the left, and by 6 to the right, with its sign under SXM 0 too.
        LACK    1
        SACL    60h
        LT      60h
        MPYK    -64
        RSXM
        PAC                     ; FFFFFFC0h
        SPM     1
        PAC                     ; FFFFFF80h
        SPM     2
        PAC                     ; FFFFFC00h
        SPM     3
        PAC                     ; FFFFFFFFh
