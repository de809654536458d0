 .global GO
 B GO
