        .copy   "part.inc"
        .copy   "part.inc"
END     B       END
