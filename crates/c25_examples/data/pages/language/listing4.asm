        .ref    FAR
TAB     .word   TAB,FAR+2,END-TAB,2+TAB
END     .word   $-TAB
