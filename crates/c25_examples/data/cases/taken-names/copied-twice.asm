 .copy "gains.inc"
 .copy "gains.inc"
