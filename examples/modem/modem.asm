* Receives characters from a modem of 300 bits a second, Bell 103's originating
* side: a mark (1) is a tone of 1,270 Hz, a space (0) one of 1,070 Hz. A bit is
* 32 samples, at 9,600 a second. A character is a start bit 0, eight bits with
* the lowest first, and a stop bit 1; between characters there are marks. The
* first sample is the first one of a bit: where bits begin is not searched for.
*
* Each bit is the stronger of its tones, by Goertzel's algorithm: a resonator
*     s(n) = x(n) + c s(n-1) - s(n-2),   c = 2 cos (2 pi f / 9600)
* has in the end the tone's power, s1 s1 + s2 s2 - c s1 s2. Samples and s are in
* Q15, c is in Q14; it gets 1/32 of a sample, since it adds up what it finds.
* Port 0 gets the characters, port 1 the powers.

N       .set    32              ; samples of a bit
BITS    .set    23              ; so many are received

        .bss    S1,1            ; s(n-1), and behind it
        .bss    S2,1            ; s(n-2): DMOV moves S1 there
        .bss    C,1             ; c of the tone
        .bss    CS1,1           ; c s1
        .bss    POWER,1
        .bss    SPACE,1         ; the power of the space's tone
        .bss    CHAR,1          ; the bits so far, the newest one in bit 15
        .bss    BLOCK,N         ; the samples of a bit

        .text
        LDPK    S1              ; the page of all the variables
        SSXM
        ROVM
        SPM     0
        LALK    -1              ; marks alone: no start bit yet
        SACL    CHAR
        LARK    AR7,BITS-1
NEXT    LRLK    AR1,BLOCK
        LARP    AR1
        RPTK    N-1
        IN      *+,PA0
        LALK    25056           ; c of 1,070 Hz
        CALL    TONE
        SACL    SPACE
        LALK    22085           ; c of 1,270 Hz
        CALL    TONE
        SUB     SPACE           ; no borrow, C = 1: it is a mark
        ZALH    CHAR            ; (a load leaves C)
        ROR                     ; C comes in from the left
        SACH    CHAR
        BIT     CHAR,9          ; bit 6 is the oldest of ten bits:
        BBNZ    MORE            ; a mark, so no start bit yet
        LAC     CHAR,9          ; its bits 14 to 7 are the character:
        ANDK    0FF00h,8        ; keep them, at bits 23 to 16 now
        SACH    CHAR
        OUT     CHAR,PA0
        LALK    -1              ; wait for the next start bit
        SACL    CHAR
MORE    LARP    AR7
        BANZ    NEXT,*-
DONE    IDLE                    ; no interrupt is let through: sleeps
        B       DONE

* TONE: for the c in the accumulator, the tone's power in the block, also there.
TONE    SACL    C
        ZAC
        SACL    S1
        SACL    S2
        LT      C               ; T = c, all through the block
        LRLK    AR1,BLOCK
        LARK    AR2,N-1
        LARP    AR1
STEP    LAC     *+,9,AR2        ; x(n) / 32, in Q29 like all that follows
        SUB     S2,14
        MPY     S1
        APAC
        DMOV    S1              ; s(n-1) becomes s(n-2)
        SACH    S1,2            ; s(n), in Q15 again
        BANZ    STEP,*-,AR1
        MPY     S1
        PAC
        SACH    CS1,2
        ZAC
        MPYK    0
        SQRA    S1              ; adds nothing; P = s1 s1
        SQRA    S2              ; adds that;    P = s2 s2, T = s2
        MPYA    CS1             ; adds that;    P = s2 c s1
        SPAC
        SACH    POWER,1         ; Q30 to Q15
        OUT     POWER,PA1
        LAC     POWER
        RET
