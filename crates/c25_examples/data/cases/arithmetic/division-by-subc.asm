* 41 by 7 is 5, with 6 left. The lowest number less 8000h overflows, and does not stay there under OVM.
        .copy   "set.inc"
        LACK    7
        SACL    62h
        LACK    41
        RPTK    15
        SUBC    62h             ; 00060005h
        LACK    1
        SACL    62h
        SOVM
        SETACC  8000h,0
        SUBC    62h             ; twice 80000000h is 0
