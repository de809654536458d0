 .data a
