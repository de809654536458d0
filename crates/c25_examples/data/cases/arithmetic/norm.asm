* NORM shifts up to the sign: TC is 1 where there is nothing to shift.
        .copy   "set.inc"
        SETACC  2000h,0
        NORM    *               ; 40000000h
        NORM    *               ; 40000000h, TC
        RTC
        ZAC
        NORM    *               ; 0, TC
