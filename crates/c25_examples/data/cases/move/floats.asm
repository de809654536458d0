        .float  1.5
        .float  +nan
        .float  -inf
        .float  1e99
