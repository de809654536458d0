;	The number of a macro's parameter, and that of a symbol that -D defines
GET	.macro	WORD
	LAC	WORD
	.endm
	.sect	"vectors"
	B	START
	.text
START	LDPK	4
	GET	200h
	GET	300h
	SACL	BUF
HERE	B	HERE
