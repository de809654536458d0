;	RUN is copied to block B0, and reads 380h there while DP is 6
	LRLK	AR1,200h
	LARP	AR1
	RPTK	4
	BLKP	CODE,*+
	CNFP
	LDPK	6
	B	RUN
	.sect	"fast"
	.label	CODE
RUN	LAC	300h
	ADD	380h
	SACL	301h
	B	RUN
