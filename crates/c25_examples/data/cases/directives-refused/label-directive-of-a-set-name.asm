X .set 1
 .label X
