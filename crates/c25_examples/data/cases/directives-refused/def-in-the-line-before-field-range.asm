 .def X
 LACK 256
