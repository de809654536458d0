* Repeats MACD three times, with the mask for line 0, whose handler puts the mask out.
        B       GO
        B       ISR
GO      LACK    1
        SACL    4
        CNFP
        EINT
        RPTK    2
        MACD    0FF00h,*-
S       B       S
ISR     OUT     4,PA0
T       B       T
