        .label  LOADED
        LAC     LOADED
L       B       L
