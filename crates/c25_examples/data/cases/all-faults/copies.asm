        FOO
        .copy   "part.inc"
        BAR
