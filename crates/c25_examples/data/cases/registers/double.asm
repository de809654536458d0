        .def    DOUBLE
DOUBLE  SFL
        RET
