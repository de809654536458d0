* One second-order section: a Butterworth low-pass of 500 Hz at 8,000 samples
* a second, in direct form I.
*
*     y(n) = b0 x(n) + b1 x(n-1) + b2 x(n-2) + a1 y(n-1) + a2 y(n-2)
*
* a1 is above 1, so all coefficients are in Q14 (16384 is 1.0). Samples are in
* Q15; a product is then in Q29, and two bits to the left make y of it.
* The whole sum stands in the accumulator, so y is rounded only once.
*
* Samples may have the whole range. The sum then goes beyond 1 where the input
* turns fast; it never goes beyond 2.2, and Q29 has room up to 4. It is doubled
* twice in overflow mode, so that y stays between -1 and 1: without that, a y
* that wraps from 1 to -1 would come back by a1 and a2 for ever.

SAMPLES .set    160             ; so many are filtered

* LTD and DMOV move a word to the next address: the order here matters.
        .bss    X,1             ; x(n)
        .bss    X1,1            ; x(n-1)
        .bss    X2,1            ; x(n-2)
        .bss    Y1,1            ; y(n-1), and y(n) once it is there
        .bss    Y2,1            ; y(n-2)
        .bss    B0,5            ; the coefficients: b0, b1, b2, a1, a2
        .bss    HIGH,1          ; for DOUBLE
        .bss    LOW,1
B1      .set    B0+1
B2      .set    B0+2
A1      .set    B0+3
A2      .set    B0+4

* The accumulator twice, within its limits.
DOUBLE  .macro
        SACH    HIGH
        SACL    LOW
        ADDH    HIGH
        ADDS    LOW
        .endm

        .text
        LDPK    X               ; the page of all the variables
        SSXM
        SOVM                    ; a sum beyond 32 bits becomes the limit
        SPM     0               ; products are added as they are

        LRLK    AR1,X           ; clear the five samples
        LARP    AR1
        ZAC
        RPTK    4
        SACL    *+
        RPTK    4               ; AR1 is now at B0
        BLKP    COEFFS,*+

        LARK    AR7,SAMPLES-1
        LARP    AR7
NEXT    IN      X,PA0
        LALK    1,13            ; half of the last bit of y(n), to round
        LT      X2
        MPY     B2              ; P = b2 x(n-2)
        LTD     X1              ; add it; T = x(n-1), which becomes x(n-2)
        MPY     B1
        LTD     X               ; and x(n) becomes x(n-1)
        MPY     B0
        LTA     Y2              ; T = y(n-2)
        MPY     A2
        LTD     Y1              ; T = y(n-1), which becomes y(n-2)
        MPY     A1
        APAC
        DOUBLE                  ; Q30
        DOUBLE                  ; Q31
        SACH    Y1              ; y(n) in Q15
        OUT     Y1,PA1
        BANZ    NEXT,*-

DONE    IDLE                    ; no interrupt is let through: sleeps
        B       DONE

COEFFS  .word   491,982,491,23826,-9405
