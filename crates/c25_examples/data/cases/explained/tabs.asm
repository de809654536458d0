* Nothing holds twice K.
K	.set	300
	NOP
	NOP
	NOP
	NOP
	NOP
	NOP
	NOP
	LACK	K*2	; twice
