* DECIMAL: the five decimal digits of the number 0 to 65,535 in the
* accumulator, as characters in DIGITS. Uses AR1, AR2, AR3, ARP and the page.

        .def    DECIMAL,DIGITS

        .bss    DIGITS,5
        .bss    REST,1          ; what the digits before have left

        .data                   ; a table in data memory
TENS    .word   10000,1000,100,10,1

        .text
DECIMAL LDPK    REST
        SACL    REST
        LRLK    AR1,TENS
        LRLK    AR2,DIGITS
        LARK    AR3,4           ; one digit less than there are
        LARP    AR1
DIGIT   ZALS    REST
        RPTK    15              ; sixteen steps divide 16 bits:
        SUBC    *               ; the remainder above, the quotient below
        MAR     *+,AR2
        SACH    REST
        ADDK    '0'             ; makes the digit a character
        SACL    *+,0,AR3
        BANZ    DIGIT,*-,AR1
        RET
