* A breakpoint is met behind a step, the last one too, and not within a repeat.
        LACK    1
S       ADDK    1
        RPTK    2
        NOP
        B       S
