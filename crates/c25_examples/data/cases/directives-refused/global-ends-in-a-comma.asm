 .global A,
