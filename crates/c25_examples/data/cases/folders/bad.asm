        .copy   "bad.inc"
