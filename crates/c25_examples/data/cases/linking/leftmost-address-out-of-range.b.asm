A .set 99999
 .def A
B .set 1
 .def B
