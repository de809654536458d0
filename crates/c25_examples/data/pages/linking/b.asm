GO NOP
 .def GO
