 .break *0+
