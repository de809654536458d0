;	LDPK SECOND is forgotten: DP is still 4 where SECOND is read
FIRST	.usect	"first",1
	.bss	SECOND,1
	.sect	"vectors"
	B	START
	.text
START	LDPK	FIRST
	LAC	FIRST
	ADD	SECOND
	SACL	FIRST
HERE	B	HERE
