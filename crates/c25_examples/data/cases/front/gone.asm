        LACK    SCALE
        .copy   "gone.inc"
