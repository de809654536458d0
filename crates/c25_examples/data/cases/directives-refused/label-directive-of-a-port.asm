 .label pa15
