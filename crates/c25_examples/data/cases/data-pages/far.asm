;	DP is loaded from memory where 300h is read; SST writes to page 0 whatever DP is
	.sect	"vectors"
	B	START
	.text
START	LDPK	6
	SST	300h
	LDP	60h
	LAC	300h
	LST	300h
HERE	B	HERE
