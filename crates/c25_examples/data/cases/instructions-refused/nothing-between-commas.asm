 ADD *,,AR3
