 .ref NO
 .word NO
 .def GO
GO NOP
