N       .set    0FFFFh
        .def    N,T,V
        NOP
T       NOP
        .bss    V,4
