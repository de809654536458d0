 .ref NO
 .word NO
