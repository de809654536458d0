SHIFT	.macro	n,by
	LAC	n,by	; by so many bits
	.endm
	SHIFT	60h,4*4
