* Names that the other module has too, and a section that runs in block B0.
        .def    FAST
        .bss    X,4
Y       .set    X+1
_low    .set    2
low     .set    3
LOOP    NOP
LOOP2   RET
        .sect   "fast"
        .label  LOADED
FAST    LACK    5
        NOP
        RET
        .label  LAST
