#!/usr/bin/env bash
# Builds and runs checks/boost.cpp, which makes the same random calls on a segment of Lezgauri and on one of
# Boost.Interprocess: checks/boost.sh [COUNT] [SEED]. Needs a C++ compiler, libboost-dev, and the library
# crates/lezgauri_c/out/liblezgauri.a, or LIBRARY. If there is no Boost, the status is 77.
set -eu
here=$(cd "$(dirname "$0")" && pwd)
crate=$here/../crates/lezgauri_c
library=$(realpath "${LIBRARY:-$crate/out/liblezgauri.a}")
work=$(mktemp -d)
trap 'rm -rf "$work"' EXIT
header=boost/interprocess/managed_external_buffer.hpp
if ! echo "#include <$header>" | "${CXX:-c++}" -x c++ -fsyntax-only - 2> "$work/err"; then
  echo "no Boost"
  exit 77
fi
"${CXX:-c++}" -std=c++17 -Wall -Wextra -O1 -I"$crate/include" -o "$work/boost" "$here/boost.cpp" "$library"
"$work/boost" "$@"
