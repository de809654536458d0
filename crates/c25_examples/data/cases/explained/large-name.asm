 .def Y
Y .set 65535
