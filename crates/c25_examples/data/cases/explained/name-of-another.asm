 .ref Y
X NOP
 LARK AR0,Y
