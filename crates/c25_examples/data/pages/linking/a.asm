 B FAR
 .ref FAR
