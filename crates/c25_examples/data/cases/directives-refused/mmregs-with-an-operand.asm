 .mmregs 1
