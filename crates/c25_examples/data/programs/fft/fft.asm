* A fast Fourier transform of 16 points, radix 2, decimation in time.
*
*     X(k) = 1/16 sum of x(n) exp (-2 pi i k n / 16)
*
* Port 0 has x(0) to x(15), real fractions in Q15; port 1 gets the real and the
* imaginary part of X(0), X(1), .. X(15). Each of the four stages halves its
* results, so that nothing goes beyond 1; together that is the 1/16.
*
* The points lie in the order of their numbers' bits read backwards. *BR0+ walks
* in that order by itself: it adds AR0, half of the array, with the carry going
* from left to right. For this the array begins at a multiple of its size: at
* 300h, by the command file.
*
* A butterfly makes of the points p and q and a factor w = exp (-2 pi i j / 2m)
* the points (p + w q) / 2 and (p - w q) / 2. In a stage p and q are m points
* apart; each w serves all pairs that are 2m points apart.

N       .set    16
WORDS   .set    2*N             ; a point is two words: real, imaginary

POINTS  .usect  "points",WORDS
WR      .usect  "points",1      ; the factor: its real part
WI      .usect  "points",1      ; and its imaginary part
TR      .usect  "points",1      ; half of w q
TI      .usect  "points",1
APART   .usect  "points",1      ; words between p and q, 2m
STEP    .usect  "points",1      ; words between the p of two pairs, 4m
PAIRS   .usect  "points",1      ; pairs of a factor, less one
GROUP   .usect  "points",1      ; factors of this stage, less one
FIRST   .usect  "points",1      ; the address of the next factor's first p
ROOTS   .usect  "points",WORDS-2 ; factors of all stages

        .text
        LDPK    WR
        SSXM
        ROVM
        SPM     0
        LRLK    AR1,POINTS
        LARP    AR1
        ZAC
        RPTK    WORDS-1
        SACL    *+
        LRLK    AR1,ROOTS
        RPTK    WORDS-3
        BLKP    TABLE,*+

        LRLK    AR1,POINTS      ; the samples, each to its place: 0, 8, 4, 12, ..
        LARK    AR0,N           ; half of the array
        RPTK    N-1
        IN      *BR0+,PA0

        LARK    AR6,3           ; four stages
        LRLK    AR3,ROOTS
        LACK    2               ; in the first p and q are neighbours
        SACL    APART
        LACK    N/2-1
        SACL    PAIRS
        ZAC
        SACL    GROUP

STAGE   LAC     APART,1
        SACL    STEP
        LAR     AR0,STEP
        LAR     AR5,GROUP
        LALK    POINTS
        SACL    FIRST
FACTOR  LAR     AR1,FIRST       ; AR1 is at p
        LAC     FIRST
        ADD     APART
        SACL    STEP
        LAR     AR2,STEP        ; AR2 is at q
        LAR     AR4,PAIRS
        LARP    AR3
        LAC     *+
        SACL    WR
        LAC     *+,0,AR2
        SACL    WI

PAIR    LALK    1,15            ; half of w q's real part, rounded
        LT      WR
        MPY     *+              ; wr qr
        LTA     WI
        MPY     *               ; wi qi
        SPAC
        SACH    TR
        LALK    1,15            ; and of its imaginary part
        LT      WR
        MPY     *-              ; wr qi
        LTA     WI
        MPY     *,AR1           ; wi qr
        APAC
        SACH    TI
        LAC     *,15,AR2        ; half of p, less that, to q
        SUBH    TR
        SACH    *+,0,AR1
        ADDH    TR              ; half of p and that, to p
        ADDH    TR
        SACH    *+
        LAC     *,15,AR2
        SUBH    TI
        SACH    *-,0,AR1
        ADDH    TI
        ADDH    TI
        SACH    *-
        MAR     *0+,AR2         ; the next pair, 4m words further on
        MAR     *0+,AR4
        BANZ    PAIR,*-,AR2

        LAC     FIRST           ; the next factor's p is the next point
        ADDK    2
        SACL    FIRST
        LARP    AR5
        BANZ    FACTOR,*-

        LAC     APART,1         ; the next stage: p and q twice as far apart,
        SACL    APART
        LAC     GROUP,1         ; twice as many factors,
        ADDK    1
        SACL    GROUP
        LAC     PAIRS,15        ; each for half as many pairs
        SACH    PAIRS
        LARP    AR6
        BANZ    STAGE,*-

        LRLK    AR1,POINTS      ; the result, in the order of k
        LARP    AR1
        RPTK    WORDS-1
        OUT     *+,PA1

DONE    IDLE                    ; no interrupt is let through: sleeps
        B       DONE

* Cosine and minus sine of 2 pi j / 2m: m is 1, 2, 4, 8, and j goes up to m-1.
TABLE   .word   32767,0
        .word   32767,0,0,-32768
        .word   32767,0,23170,-23170,0,-32768,-23170,-23170
        .word   32767,0,30274,-12540,23170,-23170,12540,-30274
        .word   0,-32768,-12540,-30274,-23170,-23170,-30274,-12540
