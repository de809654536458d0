* Generates the two tones of a telephone's key 5: 770 Hz and 1,336 Hz, at
* 8,000 samples a second.
*
* The assembler makes the sine table, one period in 64 words: a macro's loop
* works out each word, and no number of the table is typed in. A tone has a
* phase, of which 65,536 is a whole period. Each sample adds a step to it, and
* its upper six bits choose the word of the table.

RATE    .set    8000            ; samples a second
SAMPLES .set    48              ; so many are made

* SINE height: a period of a sine in 64 words. The series
*     sin x = x (1 - xx/6 (1 - xx/20 (1 - xx/42 (1 - xx/72)))),  xx = x * x
* is exact to the last bit here up to a quarter of a period; the other three
* are that one, reversed or negative. Every product stays below 2 to the 31st.
SINE    .macro  height
        .asg    0,k
        .loop   64
        .eval   k%32,j          ; the second half: as the first, but negative
        .if     j>16
        .eval   32-j,j          ; the second quarter: the first, reversed
        .endif
        .eval   j*3217,x        ; the angle in Q15: pi/32 is 3217/32768
        .eval   j*j*5174544>>14,xx      ; its square in Q15 (pi/32 squared)
        .eval   16384-xx/144,t          ; the brackets, innermost first, in Q14
        .eval   16384-(xx*t>>15)/42,t
        .eval   16384-(xx*t>>15)/20,t
        .eval   32768-(xx*t/6>>14),t    ; the last one in Q15
        .eval   (x*t>>14)*height+32768>>16,s
        .if     k<32
        .word   s
        .else
        .word   -s
        .endif
        .eval   k+1,k
        .endloop
        .endm

* TONE phase,hertz,value: the next sample of a tone to `value`. SXM must be 0.
TONE    .macro  phase,hertz,value
        LAC     phase,6         ; the upper six bits of the phase ..
        SACH    value           ; .. stand in the upper half now
        LALK    TABLE
        ADD     value           ; the address of the word
        TBLR    value           ; from program memory
        LAC     phase           ; the phase goes on, modulo a period
        ADLK    (hertz*65536+RATE/2)/RATE
        SACL    phase
        .endm

        .bss    PHASE1,1
        .bss    PHASE2,1
        .bss    VALUE1,1
        .bss    VALUE2,1

        .text
        LDPK    PHASE1          ; the page of all the variables
        RSXM                    ; a phase has no sign
        ZAC
        SACL    PHASE1
        SACL    PHASE2
        LARK    AR7,SAMPLES-1
        LARP    AR7
NEXT    TONE    PHASE1,770,VALUE1
        TONE    PHASE2,1336,VALUE2
        LAC     VALUE1          ; the sum of the two fits a word
        ADD     VALUE2
        SACL    VALUE1
        OUT     VALUE1,PA0
        BANZ    NEXT,*-
DONE    IDLE                    ; no interrupt is let through: sleeps
        B       DONE

TABLE   SINE    16000
