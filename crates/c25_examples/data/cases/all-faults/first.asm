* The first phase has faults, so the second one is not gone over.
START   LACK    256             ; 53 of the second phase
        FOO     1
HERE    LACC    5               ; its label is defined all the same
LEN     .set    HERE-START
        .space  LEN
HERE    NOP
N       .set    UNKNOWN
        .space  N               ; N was not defined
X       .word   1F              ; its label is defined all the same
        .set    5
        .bss    B,200,1
DXR     .set    7
        .mmregs                 ; none of its names is defined
DRR     .set    8
Y       .set    X
