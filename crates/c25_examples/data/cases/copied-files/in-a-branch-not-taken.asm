        .copy   "first.inc"
        .if     0
        .copy   "nowhere.inc"
        .endif
        .copy   "second.inc"
