        IN      60h,PA2
        IN      60h,PA2
