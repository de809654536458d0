* outputs 41h for ever

GO: LACK 'A'
 SACL AT-GO
 OUT 2,PA1
AT:
 B AT,*,AR0
 B $
