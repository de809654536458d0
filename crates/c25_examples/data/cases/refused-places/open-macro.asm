P .macro
 .set 5
