* Numbers and addresses, most of them of this module alone.
        .def    START
        .ref    FAST
ONE     .set    1
MINUS   .set    -1
HIGH    .equ    10000h
X       .usect  "vars",2
Y       .usect  "vars",1
START   LDPK    X
LOOP    LACK    ONE
        SACL    X
        CALL    FAST
        B       LOOP
TABLE   .word   LOOP,START
HERE    .set    $
        .sect   "last"
        .word   0
AFTER
