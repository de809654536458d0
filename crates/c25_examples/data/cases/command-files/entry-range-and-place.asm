 .def GO
 .sect "a"
GO NOP
