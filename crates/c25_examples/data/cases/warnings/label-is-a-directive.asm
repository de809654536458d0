 NOP
end
Text
ENDM ; not .endm
