S B S
