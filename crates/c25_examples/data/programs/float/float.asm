* Floating-point products. Whole numbers come in pairs, from ports 0 and 1,
* -32,768 to 32,767; of each product port 2 gets the mantissa, port 3 the
* exponent:
*
*     product = mantissa / 32,768 times 2 to the power of the exponent
*
* A mantissa is normal where its two highest bits differ: 4000h to 7FFFh or
* 8000h to 0BFFFh, that is 0.5 to below 1, or -1 to below -0.5. NORM shifts the
* accumulator one bit to the left where bits 31 and 30 are equal, and takes one
* from the register of its operand then; else it does nothing. So, repeated, it
* makes a mantissa normal and leaves the exponent in the register.
* 0 has the mantissa 0 and, here, the exponent 0.

COUNT   .set    10              ; so many products

        .bss    MANT1,1
        .bss    EXP1,1
        .bss    MANT2,1
        .bss    EXP2,1
        .bss    NUMBER,1

        .text
        LDPK    MANT1
        SSXM
        ROVM
        SPM     0
        LARK    AR7,COUNT-1
NEXT    IN      NUMBER,PA0
        CALL    NORMAL
        SACH    MANT1
        SAR     AR1,EXP1
        IN      NUMBER,PA1
        CALL    NORMAL
        SACH    MANT2
        SAR     AR1,EXP2

        LAC     EXP1            ; the exponents are added,
        ADD     EXP2
        ADDK    1               ; and one more: Q15 times Q15 is Q30
        SACL    EXP1
        LAR     AR1,EXP1
        LT      MANT1           ; the mantissas multiplied
        MPY     MANT2
        PAC
        BZ      NONE
        LARP    AR1
        RPTK    1               ; 0.25 to 1: two bits at most
        NORM    *-
        SACH    MANT1           ; the bits below are cut off
        SAR     AR1,EXP1
        B       SHOW
NONE    ZAC
        SACL    MANT1
        SACL    EXP1
SHOW    OUT     MANT1,PA2
        OUT     EXP1,PA3
        LARP    AR7
        BANZ    NEXT,*-

DONE    IDLE                    ; no interrupt is let through: sleeps
        B       DONE

* NORMAL: the mantissa of NUMBER, in the accumulator's high half, and its
* exponent in AR1. A number of 16 bits is a fraction times 2 to the power of 15.
NORMAL  LAC     NUMBER,15       ; one bit to the right of a fraction,
        LARK    AR1,16          ; so one more
        LARP    AR1
        RPTK    15
        NORM    *-
        RET
