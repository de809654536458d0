        .copy   "names.inc"
L       B       L
