* Samples come in by interrupt INT0 and go out by interrupt INT1, through a
* ring of 8 words, so that a burst may come in faster than it goes out.
* The main program sleeps, and tells at port 2 how full the ring ever was.

        .mmregs                 ; IMR, among others
SIZE    .set    8               ; words of the ring: a power of two
RING    .usect  "ring",SIZE     ; the command file puts it at a multiple of SIZE
        .bss    HEAD,1          ; where the next sample comes in
        .bss    TAIL,1          ; where the oldest sample waits
        .bss    COUNT,1         ; how many samples wait
        .bss    MOST,1          ; the most there ever were
        .bss    SINK,1          ; a sample that finds the ring full comes here
        .bss    SAVED,4         ; what an interrupt saves

* SAVE and RESTORE keep what the interrupted program has in the accumulator
* and the status words. AR7 belongs to the interrupts alone.
SAVE    .macro
        SST     SAVED           ; SST and SST1 always write to page 0
        SST1    SAVED+1
        LDPK    0
        SACH    SAVED+2
        SACL    SAVED+3
        .endm
RESTORE .macro
        ZALH    SAVED+2
        ADDS    SAVED+3
        LST1    SAVED+1         ; loads ARP too, so LST comes behind it
        LST     SAVED           ; its data page is the last thing given back
        EINT                    ; lets no interrupt in before RET is done
        RET
        .endm
* ADVANCE pointer,change: on to the next word of the ring, and round at its
* end; and so many samples more wait.
ADVANCE .macro  pointer,change
        LAC     pointer
        ADDK    1
        ANDK    SIZE-1          ; the lower bits count round,
        ORK     RING            ; the upper ones are the ring's
        SACL    pointer
        LAC     COUNT
        ADLK    change
        SACL    COUNT
        .endm

        .sect   "vectors"
        B       START           ; 0: reset
        B       INPUT           ; 2: INT0
        B       OUTPUT          ; 4: INT1

        .text
START   LDPK    0
        LALK    RING            ; an empty ring
        SACL    HEAD
        SACL    TAIL
        ZAC
        SACL    COUNT
        SACL    MOST
        LACK    3               ; let INT0 and INT1 through
        SACL    IMR
WAIT    IDLE                    ; lets interrupts in, and sleeps until one
        LAC     COUNT
        SUB     MOST
        BLEZ    WAIT
        LAC     COUNT           ; more than ever before
        SACL    MOST
        OUT     MOST,PA2
        B       WAIT

INPUT   SAVE
        LAC     COUNT
        SUBK    SIZE
        BZ      FULL
        LAR     AR7,HEAD
        LARP    AR7
        IN      *,PA0           ; the port's word, straight into the ring
        ADVANCE HEAD,1
        RESTORE
FULL    IN      SINK,PA0        ; the port must be read all the same
        RESTORE

OUTPUT  SAVE
        LAC     COUNT
        BZ      EMPTY           ; nothing waits: nothing goes out
        LAR     AR7,TAIL
        LARP    AR7
        OUT     *,PA1
        ADVANCE TAIL,-1
EMPTY   RESTORE
