 .asg A
