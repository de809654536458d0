 .label X
 .label X
