P       .macro a
	LACK a
L?      .word L?, a ; words
        .endm
E
        P 5
        .copy "b.inc"
        .asg 2,k
        .loop k
        .word k
        .endloop
        .space 40
X:      .if 1
        .string "abc"	
        .endif
; done   

