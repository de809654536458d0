 .copy "gap.inc"
