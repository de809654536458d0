 .elseif
