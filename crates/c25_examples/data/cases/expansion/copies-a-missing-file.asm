 .copy "word.inc"
 .copy "q"
