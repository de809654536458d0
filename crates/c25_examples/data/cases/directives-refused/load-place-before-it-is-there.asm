X .set L
 .label L
