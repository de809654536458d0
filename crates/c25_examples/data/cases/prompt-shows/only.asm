        .ref    THERE
        .text
        B       THERE
