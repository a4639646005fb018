#!/usr/bin/env bash
# Makes libginlarch.a and libginlarch.so of the proved crate gx_c, in a folder: FOLDER, or crates/gx_c/out.
#   scripts/library.sh [FOLDER]
# The static library has the few lines of C of the toolchain's heap in it, so that a linker needs nothing else.
set -euo pipefail
root=$(cd "$(dirname "$0")/.." && pwd)
folder=${1:-$root/crates/gx_c/out}
mkdir -p "$folder"
folder=$(cd "$folder" && pwd)
[ -f "$root/crates/gx_c/out/libgx_c.a" ] || (cd "$root/crates/gx_c" && rt lib)
heap=$(dirname "$(rt doc)")/c/liblibc_c.a
work=$(mktemp -d)
trap 'rm -rf "$work"' EXIT

cd "$work"
ar x "$root/crates/gx_c/out/libgx_c.a"
ar x "$heap"
ar rcs libginlarch.a ./*.o
# only the calls of the header are seen from outside
printf '{ global: ginlarch_*; local: *; };\n' > calls
${CC:-cc} -shared -o libginlarch.so -Wl,-soname,libginlarch.so.1 -Wl,--version-script,calls -Wl,-z,defs ./*.o
mv libginlarch.a libginlarch.so "$folder/"
echo "$folder/libginlarch.a"
echo "$folder/libginlarch.so"
