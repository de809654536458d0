        .long   1
