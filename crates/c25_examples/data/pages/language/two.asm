        LACK    MISSING
        FOO
