 .copy "no-file.inc"
