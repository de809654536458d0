 .global X
Y .set X
