 .ref GO
 B GO
 .def END
END NOP
