 .asg A,
