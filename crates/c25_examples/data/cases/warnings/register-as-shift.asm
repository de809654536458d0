 ADD *+,AR3
 SACH *,pa2,AR1
 MPY *+,AR3
