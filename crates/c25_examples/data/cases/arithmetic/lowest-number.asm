* The lowest number has no negative: NEG and ABS set OV, and clear the carry.
        .copy   "set.inc"
        SETACC  8000h,0
        NEG                     ; 80000000h
        BV      NEXT
NEXT    SC
        SOVM
        SETACC  8000h,0
        ABS                     ; 7FFFFFFFh
        BV      LAST
LAST    SC
        SETACC  0FFFFh,0FFFEh
        ABS                     ; 2
