* A sum past the highest number wraps, and stays there under OVM. Either sets OV and clears the carry.
* OV stays behind sums that fit.
        .copy   "set.inc"
        SETACC  7FFFh,0FFFFh
        ADDK    1               ; 80000000h
        BV      NEXT            ; clears OV
NEXT    SC
        SOVM
        SETACC  7FFFh,0FFFFh
        ADDK    1               ; 7FFFFFFFh
        SETACC  0FFFFh,0FFFFh
        ADDK    1               ; 0, with the carry
        BV      LAST
LAST    SETACC  0FFFFh,0FFFFh
        ADDK    1               ; 0
