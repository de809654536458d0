        ABS
