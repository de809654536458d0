        .copy   "ports.inc"
        ECHO    60h
        B       0
