        .loop   101
        FOO
        .endloop
