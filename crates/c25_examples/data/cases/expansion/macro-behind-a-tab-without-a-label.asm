	.macro A
