        LACK    256
