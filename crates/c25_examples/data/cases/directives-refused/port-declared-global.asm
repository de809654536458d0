 .global A,PA15
