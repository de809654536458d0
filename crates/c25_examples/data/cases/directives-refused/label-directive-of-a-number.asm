 .label 5
