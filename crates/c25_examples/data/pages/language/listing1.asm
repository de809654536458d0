* A comment line.
; Another one.
START:  NOP                     ; a label with a colon
LOOP    lack    5               ; mnemonics in either case
ALONE
        B       LOOP , *        ; blanks are free
