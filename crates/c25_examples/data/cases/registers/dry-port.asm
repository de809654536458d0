NEXT    IN      60h,PA3
        OUT     60h,PA4
        B       NEXT
