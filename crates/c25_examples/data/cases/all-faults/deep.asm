LEVEL   .macro
        LEVEL
        .endm
        FOO
        LEVEL                   ; the 33rd call inside another has no room: nothing is read after it
        BAR
