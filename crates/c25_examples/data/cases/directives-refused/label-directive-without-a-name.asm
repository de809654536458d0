 .label
