 .global E
X MACD E+2,X+130
