* BV and BNV clear OV, whether they branch or not.
        .copy   "set.inc"
        SETACC  7FFFh,0FFFFh
        ADDK    1
        BV      TAKEN
        IDLE
TAKEN   SETACC  7FFFh,0FFFFh
        ADDK    1
        BNV     NONE
        BNV     DONE            ; OV is 0
NONE    IDLE
DONE    BV      NONE
        NOP
