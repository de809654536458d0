        .def    E
        NOP
E
