 .def E
 NOP
E
