* Writes 5 to block B0, and makes it program memory.
        LDPK    4
        LACK    5
        SACL    0
        CNFP
STOP    B       STOP
