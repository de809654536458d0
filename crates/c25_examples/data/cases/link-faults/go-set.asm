 .def GO
GO .set 3
