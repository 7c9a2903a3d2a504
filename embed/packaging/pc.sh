#!/bin/sh
# Prints morris.pc, in which pkg-config finds the library: pc.sh PREFIX VERSION [LIBDIR INCLUDEDIR].
cat << END
prefix=$1
libdir=${3-\${prefix\}/lib}
includedir=${4-\${prefix\}/include}

Name: morris
Description: values of Nine Men's Morris positions from table files
Version: $2
Libs: -L\${libdir} -lmorris
Cflags: -I\${includedir}
END
