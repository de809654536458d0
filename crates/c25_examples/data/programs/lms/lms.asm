* An adaptive filter: least mean squares, a sample an interrupt.
*
*     y(n) = w(0) x(n) + .. + w(7) x(n-7)
*     e(n) = d(n) - y(n)
*     w(k) becomes w(k) + mu e(n) x(n-k)
*
* INT0 tells that a sample is there: x(n) at port 0, and at port 1 d(n), what
* came out of the system whose weights are looked for. Port 2 gets e(n), which
* goes to 0; behind the last sample port 3 gets the weights, w(7) first.
* All are fractions in Q15.
*
* The weights lie in block B0. MACD reads them there as program memory (CNFP);
* to change them, the block is data memory again (CNFD).

TAPS    .set    8
SAMPLES .set    160             ; so many are taken
B0      .set    200h            ; block B0 as data memory,
B0PROG  .set    0FF00h          ; and as program memory

        .bss    XNEW,1          ; x(n)
        .bss    XOLD,TAPS-1     ; x(n-1) to x(n-7), at ascending addresses
        .bss    XGONE,1         ; MACD moves each sample one word on
        .bss    WANTED,1        ; d(n)
        .bss    OUTPUT,1        ; y(n)
        .bss    ERROR,1         ; e(n)
        .bss    MU,1
        .bss    MUERROR,1       ; mu e(n), rounded
        .bss    LEFT,1          ; samples still to come
OLDEST  .set    XGONE-1

        .mmregs

        .text
        B       START           ; 0: reset
        B       SAMPLE          ; 2: INT0

START   LDPK    0
        LACK    1               ; lets INT0 through
        SACL    IMR
        LDPK    XNEW
        SSXM
        SOVM                    ; a weight or an e(n) beyond 1 becomes 1
        SPM     1               ; Q15 times Q15 is Q30: shifted left, Q31
        LALK    4000h           ; mu is 0.5
        SACL    MU
        LALK    SAMPLES
        SACL    LEFT
        ZAC                     ; no samples and no weights yet
        LRLK    AR1,XNEW
        LARP    AR1
        RPTK    TAPS
        SACL    *+
        LRLK    AR1,B0
        RPTK    TAPS-1
        SACL    *+

WAIT    IDLE                    ; takes interrupts, and sleeps until one comes
        LAC     LEFT
        BNZ     WAIT
        DINT                    ; SAMPLE would change AR1 and ARP
        LRLK    AR1,B0
        LARP    AR1
        RPTK    TAPS-1
        OUT     *+,PA3
DONE    B       DONE

* SAMPLE: one sample. Nothing is saved: WAIT needs the modes and the page, and
* LEFT in the accumulator, which is what SAMPLE leaves there.
SAMPLE  IN      XNEW,PA0
        IN      WANTED,PA1
        CNFP
        LRLK    AR1,OLDEST
        LARP    AR1
        LALK    1,15            ; half of the last bit of y(n), to round
        MPYK    0               ; P = 0: the first MACD adds nothing
        RPTK    TAPS-1
        MACD    B0PROG,*-       ; w(7) x(n-7) up to w(0) x(n)
        APAC
        SACH    OUTPUT
        CNFD

        ZALH    WANTED          ; in the high half, within its limits
        SUBH    OUTPUT
        SACH    ERROR
        OUT     ERROR,PA2
        LT      ERROR
        MPY     MU
        LALK    1,15
        APAC
        SACH    MUERROR

        LT      MUERROR         ; T stays through all weights
        LRLK    AR1,XGONE       ; x(n-7), which has moved there
        LRLK    AR2,B0          ; w(7)
        LARK    AR3,TAPS-1
        MPY     *-,AR2
WEIGHT  ZALR    *,AR1           ; w(k), and half of its last bit, to round
        MPYA    *-,AR2          ; plus mu e x(n-k); the next product
        SACH    *+,0,AR3
        BANZ    WEIGHT,*-,AR2

        LAC     LEFT
        SUBK    1
        SACL    LEFT
        EINT                    ; (acts behind the RET)
        RET
