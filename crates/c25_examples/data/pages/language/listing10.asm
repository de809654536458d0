SIZE    .set    4*4
LAST    .equ    SIZE-1
BUF     .usect  "buf",SIZE
TOP     .set    BUF+LAST
        LRLK    AR1,TOP
        LARK    AR2,LAST
