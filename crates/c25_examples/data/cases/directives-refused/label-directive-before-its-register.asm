AR1 .label 5
