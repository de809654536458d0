* Counts down: puts 3, 2, 1 and 0 out at port 0, and sleeps.
        LARP    AR1             ; AR1 is the current register
        LARK    AR1,3
NEXT    SAR     AR1,60h         ; to data memory,
        OUT     60h,PA0         ; and from there to the port
        BANZ    NEXT,*-         ; one less; again, unless it was 0
        IDLE                    ; no interrupt is let through: sleeps
