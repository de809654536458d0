        .def    GO
GO      B       GO
