A .set -1
 .def A
