 LACK 256
 .def X
