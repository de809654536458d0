X ADD *+,2,X
