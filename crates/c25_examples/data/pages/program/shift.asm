        ADD     *+,AR3          ; a shift of 3, and ARP stays
        ADD     *+,0,AR3
