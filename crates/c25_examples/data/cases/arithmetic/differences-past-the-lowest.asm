* 0 less 1 borrows and does not overflow; the lowest number less 1 overflows, and stays there under OVM.
        .copy   "set.inc"
        SC
        ZAC
        SUBK    1               ; FFFFFFFFh, a borrow
        SOVM
        SETACC  8000h,0
        SUBK    1               ; 80000000h, no borrow
