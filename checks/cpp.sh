#!/usr/bin/env bash
# Tests lezgauri.hpp. Builds checks/cpp.cpp with g++ and clang++, or those in CXX, for C++17, 20 and 23, without a warning, and runs it.
# Runs it also under valgrind, with the address and undefined behaviour sanitizers, and without exceptions. Builds the example, runs it
# twice on one file, by itself and under valgrind, and compares what it prints. Needs C and C++ compilers with sanitizers, make, valgrind.
#
#   cpp.sh [LIBRARY]    the library is crates/lezgauri_c/out/liblezgauri.a if no other is given
set -eu
here=$(cd "$(dirname "$0")" && pwd)
root=$(dirname "$here")
include=$root/crates/lezgauri_c/include
library=$(realpath "${1:-$root/crates/lezgauri_c/out/liblezgauri.a}")
work=$(mktemp -d)
trap 'rm -rf "$work"' EXIT

# debug info that valgrind reads, also from clang++
strict=(-Wall -Wextra -Wpedantic -Wconversion -Wshadow -Werror -gdwarf-4 -I"$include" -pthread)
wrapped=(-Wl,--wrap=malloc,--wrap=realloc)
sanitized=(-fsanitize=address,undefined -fno-sanitize-recover=all)
under=(valgrind --quiet --leak-check=full --errors-for-leak-kinds=all --error-exitcode=9)
client=$root/examples/increment.client
install -m 644 "$root/examples/counter.image" "$work/image"
arguments=("$root/examples/counter.image" "$client" "$work/image")

compilers=()
for compiler in ${CXX:-g++ clang++}; do
  if command -v "$compiler" > "$work/found"; then
    compilers+=("$compiler")
  fi
done
for compiler in "${compilers[@]}"; do
  for standard in c++17 c++20 c++2b; do
    "$compiler" -std=$standard "${strict[@]}" "${wrapped[@]}" -o "$work/cpp" "$here/cpp.cpp" "$library"
    "$work/cpp" "${arguments[@]}" > "$work/out" || { cat "$work/out"; exit 1; }
    echo "$compiler -std=$standard: $(cat "$work/out")"
  done
  if [ "$compiler" = "${compilers[0]}" ]; then
    "${under[@]}" "$work/cpp" "${arguments[@]}"
  fi
done

# lezgauri.c is compiled again here, since the library has it without the sanitizers
${CC:-cc} -std=c11 -O1 -g "${sanitized[@]}" -I"$include" -c "$include/lezgauri.c" -o "$work/lezgauri.o"
"${compilers[0]}" -std=c++17 -O1 "${strict[@]}" "${wrapped[@]}" "${sanitized[@]}" -o "$work/cpp" "$here/cpp.cpp" "$work/lezgauri.o" \
  "$library"
"$work/cpp" "${arguments[@]}"
"${compilers[0]}" -std=c++17 -fno-exceptions "${strict[@]}" "${wrapped[@]}" -o "$work/cpp" "$here/cpp.cpp" "$library"
"$work/cpp" "${arguments[@]}"

make -s -C "$root/examples/cpp" CXX="${compilers[0]}" OUT="$work" ARCHIVE="$library" all
install -m 644 "$root/examples/counter.image" "$work/image"
printf '6 steps: %s\n' 42 43 44 45 46 47 > "$work/wanted"
"$work/counter" "$work/image" "$client" > "$work/out"
"${under[@]}" "$work/counter" "$work/image" "$client" >> "$work/out"
diff "$work/wanted" "$work/out"
echo "the header for C++ works with ${compilers[*]}, by itself, under valgrind and with sanitizers"
