 .def GO
GO NOP
 .bss v,3
