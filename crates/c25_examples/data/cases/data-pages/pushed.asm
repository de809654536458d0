;	PUSH moves words of the stack
	.bss	SECOND,1
	.sect	"vectors"
	B	START
	.text
START	PUSH
	LAC	SECOND
HERE	B	HERE
