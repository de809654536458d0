	.def	SHOW
	.text
SHOW	ADD	300h
	RET
