* Divides signed words: dividends from port 0, divisors from port 1; quotients
* to port 2, remainders to port 3. As in C, the quotient is cut towards 0 and
* the remainder has the dividend's sign. A divisor is not 0, and -32,768 is not
* divided by -1, whose quotient is no word.
*
* SUBC does one step of a division: it takes the divisor, 15 bits to the left,
* from the accumulator where that leaves no less than 0, and shifts in a 1 if it
* did, else a 0. Sixteen of them leave the quotient below and the remainder
* above. Both numbers must not be negative, so the signs are put aside: the
* quotient's is that of the product.

COUNT   .set    10              ; so many are divided

        .bss    DIVIDEND,1
        .bss    DIVISOR,1
        .bss    SIZE,1          ; the divisor without its sign, 1 to 32,768
        .bss    SIGNS,1         ; bit 15 is the quotient's sign
        .bss    QUOTIENT,1
        .bss    REST,1

        .text
        LDPK    DIVIDEND
        ROVM
        LARK    AR7,COUNT-1
        LARP    AR7
NEXT    IN      DIVIDEND,PA0
        IN      DIVISOR,PA1
        SSXM
        LAC     DIVIDEND
        XOR     DIVISOR         ; (the low half alone)
        SACL    SIGNS
        LAC     DIVISOR
        ABS
        SACL    SIZE
        LAC     DIVIDEND
        ABS
        RSXM                    ; 8000h is 32,768 from here on
        RPTK    15
        SUBC    SIZE
        SACL    QUOTIENT
        SACH    REST
        BIT     SIGNS,0         ; bit 15: code 0 counts from the left
        BBZ     ABOVE
        ZAC
        SUB     QUOTIENT
        SACL    QUOTIENT
ABOVE   BIT     DIVIDEND,0
        BBZ     SHOW
        ZAC
        SUB     REST
        SACL    REST
SHOW    OUT     QUOTIENT,PA2
        OUT     REST,PA3
        BANZ    NEXT,*-

DONE    IDLE                    ; no interrupt is let through: sleeps
        B       DONE
