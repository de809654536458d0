;	INT0 ends the sleep, and nothing stands behind IDLE
	.mmregs
FIRST	.usect	"first",1
	.sect	"vectors"
	B	START
	B	SAMPLE
	.text
START	LDPK	0
	LACK	1
	SACL	IMR
	LDPK	FIRST
	LAC	FIRST
	B	WAIT
SAMPLE	RET
WAIT	IDLE
