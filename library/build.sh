#!/bin/sh
# Proves the library, and builds it: library/out/liblazbendix.a for C, C++, Rust and Go, and library/out/liblazbendix.so for
# Python and others. The kit's bin is on the PATH; cc and ar are those of the system.
set -e
here=$(cd "$(dirname "$0")" && pwd)
kit=$(dirname "$(rt doc)")
(cd "$here/../crates/lazbendix_c" && rt lib)
mkdir -p "$here/out"
cd "$here/out"
rm -f liblazbendix.a liblazbendix.so
printf 'CREATE liblazbendix.a\nADDLIB %s\nADDLIB %s\nSAVE\nEND\n' "$here/../crates/lazbendix_c/out/liblazbendix_c.a" "$kit/c/liblibc_c.a" | ar -M
cc -shared -o liblazbendix.so -Wl,--whole-archive liblazbendix.a -Wl,--no-whole-archive
echo "built $here/out/liblazbendix.a and liblazbendix.so"
