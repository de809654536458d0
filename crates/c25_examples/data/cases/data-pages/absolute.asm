;	Numbers from 128 on say which page is meant: DP is 4 where 300h and BUF are read
BUF	.set	301h
FIRST	.usect	"first",1
	.sect	"vectors"
	B	START
	.text
START	LDPK	FIRST
	LAC	200h
	ADD	300h
	SACL	BUF,1
	SACL	204h
	LDPK	6
	LAC	BUF
	ADD	HERE-START+300h,15
	SACL	60h
	LALK	280h
	LRLK	AR1,280h
	BLKD	280h,*+
HERE	B	HERE
