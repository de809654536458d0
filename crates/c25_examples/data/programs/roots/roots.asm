* Square roots by a table, and their mean over the last eight: block moves and
* tables. Samples x come from port 0, fractions in Q15 from 0 to below 1; port 1
* gets the root of x, port 2 the mean of the last eight roots.
*
* The table has the roots of 0/16, 1/16, .. 16/16. The high five bits of x tell
* between which two of them the root lies (TBLR reads both from program
* memory), the others how far, and a product makes that straight line.
*
* BLKP moves a block from program memory to data memory: here the first eight
* roots, so that the mean is a mean from the start. BLKD moves one within data
* memory: here seven of the eight roots, each one word down. Both are repeated;
* their first address then counts up by itself, the second by *+.

SAMPLES .set    24              ; so many are looked up
LAST    .set    8               ; so many roots have a mean

        .bss    X,1
        .bss    PLACE,1         ; the address of a root in the table
        .bss    LEFT,1          ; the root on the left of x
        .bss    RIGHT,1         ; and the one on its right
        .bss    FAR,1           ; how far x is from the left one, in Q15
        .bss    MEAN,1
        .bss    ROOTS,LAST      ; the last roots, the newest behind the others

        .text
        LDPK    X
        SSXM
        ROVM
        SPM     1               ; Q15 times Q15 is Q30: shifted left, Q31
        LRLK    AR1,ROOTS
        LARP    AR1
        RPTK    LAST-1
        BLKP    FIRST,*+        ; program memory to data memory

        LARK    AR7,SAMPLES-1
NEXT    IN      X,PA0
        LAC     X,5             ; bits 14 to 11 of x to the high half,
        SACH    PLACE
        LALK    07FFh           ; the others
        AND     X
        SACL    FAR
        LAC     FAR,4           ; as a fraction in Q15
        SACL    FAR
        LALK    TABLE
        ADD     PLACE
        TBLR    LEFT            ; the word whose address is in the accumulator
        ADDK    1
        TBLR    RIGHT

        LAC     RIGHT           ; the line from the left root to the right one
        SUB     LEFT
        SACL    RIGHT
        LT      RIGHT
        MPY     FAR
        LALK    1,15            ; to round
        APAC
        ADDH    LEFT

        LRLK    AR1,ROOTS       ; the new root goes behind the last seven
        LARP    AR1
        RPTK    LAST-2
        BLKD    ROOTS+1,*+      ; data memory to data memory
        SACH    *               ; (BLKD leaves the accumulator)
        OUT     *,PA1

        LRLK    AR1,ROOTS
        LALK    4               ; half of eight, to round
        RPTK    LAST-1
        ADD     *+
        RPTK    2               ; three bits to the right: an eighth
        SFR
        SACL    MEAN
        OUT     MEAN,PA2
        LARP    AR7
        BANZ    NEXT,*-

DONE    IDLE                    ; no interrupt is let through: sleeps
        B       DONE

TABLE   .word   0,8192,11585,14189,16384,18318,20066,21674,23170
        .word   24576,25905,27170,28378,29537,30652,31727,32767
FIRST   .word   16384,16384,16384,16384,16384,16384,16384,16384
