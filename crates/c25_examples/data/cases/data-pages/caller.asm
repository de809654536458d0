;	SHOW, in another module, reads a word of page 6 with the DP of its caller
	.ref	SHOW
	.sect	"vectors"
	B	START
	.text
START	LDPK	4
	LAC	200h
	CALL	SHOW
HERE	B	HERE
