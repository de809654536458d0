        .def    FILTER
FILTER  LACK    SCALE
