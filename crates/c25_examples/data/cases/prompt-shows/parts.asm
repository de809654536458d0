TWICE   .macro  P
        ADDK    P
        ADDK    P
        .endm
        .copy   "part.inc"
        TWICE   4
        IDLE
