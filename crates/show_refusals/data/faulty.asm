* A branch to a label that stands nowhere.
        LACK    65
        B       NEXT
