A .set 65536
 .def A
