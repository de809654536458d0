 .label "X"
