        .def    START
        .ref    OUTSIDE
        .global HERE,THERE
START   CALL    OUTSIDE
HERE    B       THERE
