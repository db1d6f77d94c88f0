#!/usr/bin/env bash
# Proves and builds the library for C, out/liblezgauri.a: the exports, the calls of include/lezgauri.h over them, and the requests for
# memory, which go to the C library's malloc, realloc and free. Needs the toolchain `rt` and a C compiler.
set -euo pipefail
cd "$(dirname "$0")"
kit=$(dirname "$(rt doc)")
if [ "${1-}" != --link ]; then
  rt lib --jobs "$(nproc)"
fi
work=$(mktemp -d)
trap 'rm -rf "$work"' EXIT
${CC:-cc} -std=c11 -Wall -Wextra -Werror -O2 -fPIC ${CFLAGS-} -Iinclude -c include/lezgauri.c -o "$work/lezgauri.o"
(cd "$work" && ar x "$OLDPWD/out/liblezgauri_c.a" && ar x "$kit/c/liblibc_c.a" heap.pic.o)
rm -f out/liblezgauri.a
ar rcs out/liblezgauri.a "$work"/*.o
