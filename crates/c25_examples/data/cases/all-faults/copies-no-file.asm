        FOO
        .copy   "no-file.inc"
