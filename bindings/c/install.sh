#!/usr/bin/env bash
# Installs the planner for C and C++: header, archive, pkg-config file, and the page that the header refers to.
#     bindings/c/install.sh PREFIX
# The archive is proved and built first, unless ZULAGBEMI_LIB_DIR names a folder with one. DESTDIR is put before PREFIX,
# as packagers expect.
set -euo pipefail
[ $# -eq 1 ] || { echo "usage: bindings/c/install.sh PREFIX" >&2; exit 2; }
case $1 in /*) prefix=${1%/} ;; *) prefix=$PWD/${1%/} ;; esac
here=$(cd "$(dirname "$0")" && pwd)
to=${DESTDIR:-}$prefix
version=$(sed -n 's/^#define ZUL_VERSION "\(.*\)"$/\1/p' "$here/zulagbemi.h")

mkdir -p "$to/include" "$to/lib/pkgconfig" "$to/share/doc/zulagbemi"
"$here/../archive.sh" "$to/lib"
cp "$here/zulagbemi.h" "$to/include/zulagbemi.h"
cp "$here/../../docs/PLANNER.md" "$to/share/doc/zulagbemi/PLANNER.md"
cat > "$to/lib/pkgconfig/zulagbemi.pc" <<END
prefix=$prefix
includedir=\${prefix}/include
libdir=\${prefix}/lib

Name: zulagbemi
Description: A proved planner for task graphs on up to 16 processors
Version: $version
Cflags: -I\${includedir}
Libs: -L\${libdir} -lzulagbemi
END
chmod 644 "$to/include/zulagbemi.h" "$to/share/doc/zulagbemi/PLANNER.md" "$to/lib/libzulagbemi.a" "$to/lib/pkgconfig/zulagbemi.pc"
