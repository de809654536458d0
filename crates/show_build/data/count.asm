* Counts down from 2 on port 0, and then goes to the other source.
        .global DONE
        LARP    AR1
        LARK    AR1,2
NEXT    SAR     AR1,60h
        OUT     60h,PA0
        BANZ    NEXT,*-
        B       DONE
