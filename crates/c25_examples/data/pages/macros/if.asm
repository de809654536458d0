BOARD   .set    2
        .if     BOARD = 1
        OUT     60h,PA1
        .elseif BOARD = 2
        OUT     60h,PA2
        .else
        .emsg   "no such board"
        .endif
