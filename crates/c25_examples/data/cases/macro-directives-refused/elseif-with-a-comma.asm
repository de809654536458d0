 .elseif ,
