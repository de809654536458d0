 .label L
 .space L
