;	DP is loaded from memory: it may be any page where SECOND is read
FIRST	.usect	"first",1
	.bss	SECOND,1
	.sect	"vectors"
	B	START
	.text
START	LDPK	FIRST
	LDP	FIRST
	LAC	SECOND
HERE	B	HERE
