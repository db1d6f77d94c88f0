#!/usr/bin/env bash
# Makes the shared library for Python from the static one: shared.sh ARCHIVE OUTPUT. It exports the calls of lezgauri.h and nothing else.
# Needs a C compiler.
set -euo pipefail
header=$(dirname "$0")/../crates/lezgauri_c/include/lezgauri.h
work=$(mktemp -d)
trap 'rm -rf "$work"' EXIT
{
  echo "{ global:"
  sed -nE 's/^(uint32_t |void |const char \*)(lezgauri_[a-z_]+)\(.*/  \2;/p' "$header"
  echo "local: *; };"
} > "$work/public"
${CC:-cc} -shared -Wl,-Bsymbolic -Wl,-z,defs -Wl,--version-script="$work/public" -o "$2" \
  -Wl,--whole-archive "$1" -Wl,--no-whole-archive
