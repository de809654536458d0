 .ref A
 LAC A
