 .asg A,1
