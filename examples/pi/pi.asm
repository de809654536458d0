* Holds the speed of a drive: a PI controller with limits, once a period.
*
*     e(n) = r(n) - w(n)          the error: speed wanted less speed measured
*     i(n) = i(n-1) + KI e(n)     the integral, kept in 32 bits
*     u(n) = i(n) + KP e(n)       the torque for the motor
*
* Speeds are 0 to 7FFFh, so that an error always fits a word. The integral and
* the torque stay between 0 and 7FFFFFFFh: above, the overflow mode holds the
* accumulator; below, the program does. So the integral doesn't wind up while
* the motor gives all that it can.
*
* The converter pulls BIO low when the speed of a period is there.

        .bss    WANTED,1        ; r(n), from port 0
        .bss    SPEED,1         ; w(n), from port 1
        .bss    ERROR,1         ; e(n)
        .bss    INTHIGH,1       ; i(n)
        .bss    INTLOW,1
        .bss    TORQUE,1        ; u(n), to port 2
        .bss    KP,1            ; the gains in Q15, where they can be tuned
        .bss    KI,1

        .text
        LDPK    WANTED          ; the page of all the variables
        SSXM
        SOVM                    ; an overflow gives the greatest number
        SPM     1               ; Q15 times Q15 is Q30: shifted left, Q31
        LALK    29491           ; 0.9
        SACL    KP
        LALK    19661           ; 0.6
        SACL    KI
        ZAC
        SACH    INTHIGH
        SACL    INTLOW

WAIT    BIOZ    PERIOD          ; is there a speed?
        B       WAIT

PERIOD  IN      WANTED,PA0
        IN      SPEED,PA1
        LAC     WANTED
        SUB     SPEED
        SACL    ERROR
        LT      ERROR           ; T = e(n), for both products
        ZALH    INTHIGH
        ADDS    INTLOW
        MPY     KI
        APAC                    ; i(n-1) + KI e(n)
        BGEZ    STORE
        ZAC                     ; not below 0
STORE   SACH    INTHIGH
        SACL    INTLOW
        MPY     KP
        APAC                    ; i(n) + KP e(n)
        BGEZ    GIVE
        ZAC                     ; this motor doesn't brake
GIVE    SACH    TORQUE
        OUT     TORQUE,PA2
        B       WAIT
