 .label AR1
