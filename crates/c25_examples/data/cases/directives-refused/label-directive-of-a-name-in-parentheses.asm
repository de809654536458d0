 .label (X)
