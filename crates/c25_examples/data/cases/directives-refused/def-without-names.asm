 .def
