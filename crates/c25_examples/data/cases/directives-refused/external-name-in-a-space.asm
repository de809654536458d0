 .ref X
 .space X
