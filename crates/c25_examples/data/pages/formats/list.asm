* Variables and a table.
        .bss    X,1
        .asg    3,N
START   LDPK    X
        LAC     X,N
        BLKP    TAB,X           ; copies one word
        B       $
TAB     .word   -1,'A'
        .space  20
