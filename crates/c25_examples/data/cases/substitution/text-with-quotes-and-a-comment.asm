 .asg ":k:,'k' ;k k",q
 .asg """ ;k :k:",r
 .asg 1,k
 .word q k
 .string "q:q:"
 .string "x:r:y" k
