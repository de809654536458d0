;	nothing ends the sleep, so that nothing is needed behind IDLE
FIRST	.usect	"first",1
	.sect	"vectors"
	B	START
	.text
START	LDPK	FIRST
	LAC	FIRST
	IDLE
