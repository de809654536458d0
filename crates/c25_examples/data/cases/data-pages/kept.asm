;	KEEP keeps the accumulator on the stack while it counts
FIRST	.usect	"first",1
	.bss	COUNT,1
	.sect	"vectors"
	B	START
	.text
START	LDPK	FIRST
	LAC	FIRST
	CALL	KEEP
	SACL	FIRST
HERE	B	HERE
KEEP	PUSH
	LDPK	COUNT
	LAC	COUNT
	ADDK	1
	SACL	COUNT
	LDPK	FIRST
	POP
	RET
