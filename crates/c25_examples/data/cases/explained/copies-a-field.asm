 NOP
 .copy "before-its-section.asm"
