ABA .set 1
ABB .set 2
ABC .set 3
ABD .set 4
 .word ABX
