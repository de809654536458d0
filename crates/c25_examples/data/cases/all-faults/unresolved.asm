        .ref    X
        CALL    X
