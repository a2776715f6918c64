#!/bin/sh
# The C header: main.c compiled as C and as C++ with every warning, linked to the archive of the exported calls, and run.
# Needs cc and c++, and the archive (`sh compare/archive.sh`).
set -eu
cd "$(dirname "$0")/../.."
archive=crates/loc_exports/out/libloc_exports.a
mkdir -p compare/target
cc -std=c11 -Wall -Wextra -Werror -Iinclude compare/linking/main.c "$archive" -o compare/target/linking_c
c++ -x c++ -std=c++17 -Wall -Wextra -Werror -Iinclude compare/linking/main.c -x none "$archive" -o compare/target/linking_cpp
compare/target/linking_c
compare/target/linking_cpp
echo "linking: the header's example runs from C and from C++"
