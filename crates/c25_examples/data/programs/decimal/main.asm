* Shows each word of port 0 in decimal: five digits and a blank to port 1.
* The digits come from the module decimal.asm, in the buffer that it exports.

        .ref    DECIMAL,DIGITS
        .def    START
WORDS   .set    6               ; so many are shown

        .bss    WORD,1
        .bss    BLANK,1

        .sect   "vectors"
        B       START           ; 0: reset

        .text
START   LDPK    WORD            ; the linker puts in the page
        LACK    ' '
        SACL    BLANK
        LARK    AR7,WORDS-1
NEXT    LDPK    WORD
        IN      WORD,PA0
        ZALS    WORD            ; 0 to 65,535
        CALL    DECIMAL
        LRLK    AR1,DIGITS
        LARK    AR2,4
        LARP    AR1
SHOW    OUT     *+,PA1,AR2
        BANZ    SHOW,*-,AR1
        LDPK    BLANK
        OUT     BLANK,PA1
        LARP    AR7
        BANZ    NEXT,*-
DONE    IDLE                    ; no interrupt is let through: sleeps
        B       DONE
