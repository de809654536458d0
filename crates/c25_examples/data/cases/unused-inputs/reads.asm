NEXT    IN      60h,PA1
        OUT     60h,PA2
        B       NEXT
