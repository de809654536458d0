 .asg A,B+1
