        .copy   "/four.inc"
