 .def AR0
