        .ref    FILTER
        B       FILTER+SCALE
