#!/usr/bin/env bash
# Builds and runs checks/mapped.c, which stops work on images in place: checks/mapped.sh [COUNT] [SEED]. Needs a C
# compiler, and the library crates/lezgauri_c/out/liblezgauri.a, or LIBRARY.
set -eu
here=$(cd "$(dirname "$0")" && pwd)
crate=$here/../crates/lezgauri_c
library=$(realpath "${LIBRARY:-$crate/out/liblezgauri.a}")
work=$(mktemp -d)
trap 'rm -rf "$work"' EXIT
"${CC:-cc}" -std=c11 -Wall -Wextra -Wpedantic -Werror -O1 -I"$crate/include" -o "$work/mapped" "$here/mapped.c" \
  "$library"
"$work/mapped" "$@"
