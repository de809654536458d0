* Loads a constant.
 .macro n
 LACK n
 .endm
