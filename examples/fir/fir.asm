* A low-pass filter of 16 taps: 1 kHz at 8,000 samples a second.
*
*     y(n) = h(0) x(n) + h(1) x(n-1) + .. + h(15) x(n-15)
*
* Samples and coefficients are fractions in Q15: 8000h is -1, 4000h is 0.5.
* Samples may have the whole range. The sum can then go beyond 1, so it is kept
* in Q30, which has room up to 2, and doubled in overflow mode at the end: what
* is beyond 1 becomes 1, what is below -1 becomes -1.
* The coefficients are copied to block B0, and CNFP makes that block program
* memory at 0FF00h. There a repeated MACD adds up the filter at one tap a
* step: it adds the product before, multiplies a sample by a coefficient, and
* moves the sample one word up, which makes x(n-1) of x(n) for the next time.

TAPS    .set    16
SAMPLES .set    80              ; so many are filtered
B0      .set    200h            ; block B0 as data memory,
B0PROG  .set    0FF00h          ; and as program memory

        .bss    XNEW,1          ; x(n), the newest sample
        .bss    XOLD,TAPS-1     ; x(n-1) to x(n-15), at ascending addresses
        .bss    XGONE,1         ; MACD moves the oldest sample here
        .bss    YHIGH,1         ; the sum of y(n), and then y(n)
        .bss    YLOW,1
OLDEST  .set    XGONE-1         ; x(n-15), where MACD begins

        .text
        LDPK    XNEW            ; the page of all the variables
        SSXM                    ; numbers have a sign
        SOVM                    ; a sum beyond 32 bits becomes the limit
        SPM     0               ; Q15 times Q15 is Q30

        LRLK    AR1,XNEW        ; no samples yet: clear the delay line
        LARP    AR1
        ZAC
        RPTK    TAPS
        SACL    *+

        LRLK    AR1,B0          ; coefficients: program memory to B0
        RPTK    TAPS-1
        BLKP    COEFFS,*+
        CNFP                    ; and B0 becomes program memory

        LARK    AR7,SAMPLES-1
NEXT    IN      XNEW,PA0
        LRLK    AR1,OLDEST
        LARP    AR1
        LALK    1,14            ; half of the last bit of y(n), to round
        MPYK    0               ; P = 0: the first MACD adds nothing
        RPTK    TAPS-1
        MACD    B0PROG,*-       ; from x(n-15) down to x(n)
        APAC                    ; the last product
        SACH    YHIGH           ; the sum and the sum again is Q31,
        SACL    YLOW
        ADDH    YHIGH           ; within its limits
        ADDS    YLOW
        SACH    YHIGH
        OUT     YHIGH,PA1
        LARP    AR7
        BANZ    NEXT,*-

DONE    IDLE                    ; no interrupt is let through: sleeps
        B       DONE

* h(15) first, since the oldest sample is multiplied first. (These are the
* same from both ends, so that all frequencies are delayed alike.)
COEFFS  .word   -42,-177,-406,-352,669,2961,5846,7885
        .word   7885,5846,2961,669,-352,-406,-177,-42
