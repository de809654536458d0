LAST: .elseif 1 ; no .if is open
