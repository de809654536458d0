 .copy "filter.inc"
GAIN .set 3
 NOP
