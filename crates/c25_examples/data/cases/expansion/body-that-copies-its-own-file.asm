P .macro
 .copy "body-that-copies-its-own-file.asm"
 .endm
 P
