 .set 12G
