;	nothing stands behind the last instruction
	.bss	SECOND,1
	.sect	"vectors"
	B	START
	.text
START	LDPK	SECOND
	LAC	SECOND
