        .copy   "first.inc"
        .copy   "nowhere.inc"
        .copy   "second.inc"
