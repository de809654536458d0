 .label $
