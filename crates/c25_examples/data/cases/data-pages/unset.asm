;	FAIL takes its own return from the stack, and forgets to load DP before AGAIN
FIRST	.usect	"first",1
	.bss	COUNT,1
	.sect	"vectors"
	B	START
	.text
START	LDPK	FIRST
AGAIN	LAC	FIRST
	CALL	TEST
	SACL	FIRST
	B	AGAIN
TEST	BZ	FAIL
	RET
FAIL	POP
	LDPK	COUNT
	SACL	COUNT
	B	AGAIN
