IMR .set 4
DRR .set 0
 .mmregs
