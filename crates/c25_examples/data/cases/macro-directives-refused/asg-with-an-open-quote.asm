 .asg 'A,B
