        .def    SIGN
* Puts out 0, 1 or 2 for a negative, zero or positive accumulator.
SIGN    BLZ     LESS
        BZ      NONE
        LACK    2
        B       PUT
NONE    LACK    1
        B       PUT
LESS    ZAC
PUT     SACL    61h
        OUT     61h,PA3
        RET
        NOP
