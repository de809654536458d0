 .copy "b.inc"
