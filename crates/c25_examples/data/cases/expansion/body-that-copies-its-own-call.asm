P .macro
 .copy "calls-p.inc"
 .endm
 .copy "calls-p.inc"
