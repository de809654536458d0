 .global X
 .def X
