        .copy   "there.inc"
        .copy   "gone.inc"
        .copy   "inc/far.inc"
