 .def GO
 NOP
GO NOP
