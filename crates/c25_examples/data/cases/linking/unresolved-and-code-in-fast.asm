 .ref NO
 .sect "fast"
 B NO
