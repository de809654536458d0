 .def GO
GO NOP
