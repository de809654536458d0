        .def    THERE
N       .set    3
        .text
THERE   IDLE
