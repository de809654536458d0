 .def X
 NOP
