* Mu-law companding (ITU-T G.711): samples of 16 bits from port 0; port 1 gets
* the byte of each, port 2 what that byte stands for, as a sample again.
*
* The upper 14 bits of a sample count: a sign and a size, of at most 8,158. The
* size plus 33 is 33 to 8,191. The place of its highest bit, counted from bit 5,
* is the segment, 0 to 7; the four bits behind that one are the step. A byte is
* the sign (1 for 0 and above), segment and step, the last two inverted.
*
* NORM finds the highest bit: it shifts the accumulator to the left, and takes
* one from the register, while bits 31 and 30 are equal.

SAMPLES .set    24              ; so many
LARGEST .set    8158
BIAS    .set    33

        .bss    SAMPLE,1
        .bss    SIZE,1
        .bss    SEGMENT,1
        .bss    STEP,1
        .bss    CODE,1

        .text
        LDPK    SAMPLE
        SSXM
        ROVM
        LARK    AR7,SAMPLES-1
NEXT    IN      SAMPLE,PA0
        LAC     SAMPLE,14       ; 14 of 16 bits
        SACH    SIZE
        LAC     SIZE
        ABS
        SBLK    LARGEST
        BLEZ    FITS
        ZAC
FITS    ADLK    LARGEST+BIAS    ; the size, at most 8,158, plus 33
        SACL    SIZE

        LAC     SIZE,15         ; bit 12 to bit 30, which is 15 bits and 3
        RPTK    2
        SFL
        LARK    AR1,7           ; segment 7 has its highest bit there
        LARP    AR1
        RPTK    6
        NORM    *-
        SAR     AR1,SEGMENT
        SACH    STEP            ; bit 14 is the highest, 13 to 10 are the step
        LAC     STEP,6
        SACH    STEP
        LACK    0Fh
        AND     STEP
        SACL    STEP

        LAC     SEGMENT,4
        ADD     STEP
        XORK    7Fh             ; segment and step are inverted
        SACL    CODE
        LAC     SAMPLE
        BLZ     BELOW
        LAC     CODE
        ORK     80h
        SACL    CODE
BELOW   OUT     CODE,PA1

* And back: 2 times the step plus 33, to the left by the segment, less 33.
        LAC     STEP,1
        ADDK    BIAS
        SACL    SIZE
        LT      SEGMENT
        LACT    SIZE            ; shifted by what is in T
        SUBK    BIAS
        SACL    SIZE
        LAC     SIZE,2          ; 16 bits again
        SACL    SIZE
        LAC     SAMPLE
        BGEZ    ABOVE
        ZAC
        SUB     SIZE
        SACL    SIZE
ABOVE   OUT     SIZE,PA2
        LARP    AR7
        BANZ    NEXT,*-

DONE    IDLE                    ; no interrupt is let through: sleeps
        B       DONE
