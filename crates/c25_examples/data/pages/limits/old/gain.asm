        IDT     'GAIN'
K       EQU     >7F
BUF     EQU     >300
        AORG    >20
START   LDPK    6               DATA PAGE 6
        LALK    BUF
$1      SACL    BUF
        LACK    K
        BNZ     $1
        END
