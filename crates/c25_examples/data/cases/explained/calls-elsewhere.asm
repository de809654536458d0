 .ref X
 CALL X
