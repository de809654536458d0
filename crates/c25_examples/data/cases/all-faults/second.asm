        LACK    256
        B       NOWHERE
        .byte   1,256,1/0       ; the first fault of the line
        NOP
        .def    NOWHERE
        .word   1/0
