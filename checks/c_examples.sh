#!/usr/bin/env bash
# Tests the library for C. Builds the examples for C and C++, checks/calls.c and checks/values.c, runs each with and without valgrind, and
# compares what the examples print. Also runs the two checks with the address and undefined behaviour sanitizers, checks/stack.c, an
# example with each request for memory refused, and checks/cpp.sh. Needs a C and a C++ compiler with sanitizers, make, valgrind, the
# library that `rt lib` builds in crates/lezgauri_c/out, and the program that `rt run` builds in crates/segtool/out, or another given
# program.
set -eu
here=$(cd "$(dirname "$0")" && pwd)
root=$(dirname "$here")
segtool=$(realpath "${1:-$root/crates/segtool/out/segtool}")
library=$root/crates/lezgauri_c
work=$(mktemp -d)
trap 'rm -rf "$work"' EXIT

"$library/build.sh" --link
make -s -C "$root/examples/c" OUT="$work" SEGTOOL="$segtool" all "$work/cache.image" "$work/cache.client"
cc=(${CC:-cc} -std=c11 -Wall -Wextra -Wpedantic -Werror -O1 -g -I"$library/include" -pthread)
wrapped=(-Wl,--wrap=malloc,--wrap=realloc)
for check in calls values; do
  "${cc[@]}" "${wrapped[@]}" -o "$work/$check" "$here/$check.c" "$library/out/liblezgauri.a"
  # lezgauri.c is compiled again here, since the library has it without the sanitizers
  "${cc[@]}" "${wrapped[@]}" -fsanitize=address,undefined -fno-sanitize-recover=all -o "$work/$check.sanitized" \
    "$here/$check.c" "$library/include/lezgauri.c" "$library/out/liblezgauri.a"
done
"${cc[@]}" -o "$work/stack" "$here/stack.c" "$library/out/liblezgauri.a"

counter=("$work/counter" "$root/examples/counter.image" "$root/examples/increment.client")
cache=("$work/cache" "$work/cache.image" "$work/cache.client")
counted=("$root/examples/counter.image" "$root/examples/increment.client")
calls=("$work/calls" "${counted[@]}")
table=("$work/shared_table" "$work/table.image")

# an image with a full type table, in which each struct contains the one before
{
  echo "type i64"
  for n in $(seq 0 30); do echo "type struct t$n"; done
  printf '%s\n' "name deep" "FINDOR r0 - t31 k0" "ELSE" "END"
} > "$work/deep.text"
"$segtool" asm "$work/deep.text" "$work/deep.client"
"$segtool" new "$work/deep.image" 4096 best tree
"$segtool" run "$work/deep.image" "$work/deep.image" "$work/deep.client"
under=(valgrind --quiet --leak-check=full --errors-for-leak-kinds=all --error-exitcode=9)

# three runs of six steps, each of which adds 1 to the number, 41 at first
cat > "$work/counter.wanted" <<'EOF'
6 steps at most
6 steps: 42
6 steps: 43
6 steps: 44
EOF
# the squares of 65, 66 and 67, and the first six bytes of `hit 4225`
cat > "$work/cache.wanted" <<'EOF'
miss 4225
miss 4356
-- again
hit 4356
miss 4489
-- hit 42.. and more
EOF

# a table that a writer and three readers share
echo "3 readers saw 40 values" > "$work/table.wanted"

"${counter[@]}" > "$work/out" && diff "$work/counter.wanted" "$work/out"
"${cache[@]}" > "$work/out" && diff "$work/cache.wanted" "$work/out"
"${table[@]}" > "$work/out" && diff "$work/table.wanted" "$work/out"
"${calls[@]}"
"$work/values"
"${under[@]}" "${counter[@]}" > "$work/out" && diff "$work/counter.wanted" "$work/out"
"${under[@]}" "${cache[@]}" > "$work/out" && diff "$work/cache.wanted" "$work/out"
"${under[@]}" "${table[@]}" > "$work/out" && diff "$work/table.wanted" "$work/out"
"${under[@]}" "${calls[@]}"
"${under[@]}" "$work/values"
"$work/calls.sanitized" "${counted[@]}"
"$work/values.sanitized"
"$work/stack" "${counted[@]}" "$work/cache.image" "$work/cache.client" "$work/deep.image" "$work/deep.client"

# refuses each request for memory in turn: the program reports that and fails, or doesn't need the memory
cc -O1 -shared -fPIC -o "$work/refuse.so" "$here/refuse.c" -ldl
REQUESTS="$work/requests" LD_PRELOAD="$work/refuse.so" "${counter[@]}" > "$work/out"
all=$(cat "$work/requests")
faults=0
for n in $(seq 1 "$all"); do
  status=0
  REFUSE=$n LD_PRELOAD="$work/refuse.so" "${counter[@]}" > "$work/out" 2> "$work/err" || status=$?
  if [ "$status" = 1 ] && grep -q "fault 1 at 0" "$work/err"; then
    faults=$((faults + 1))
  elif [ "$status" != 1 ] && ! { [ "$status" = 0 ] && diff "$work/counter.wanted" "$work/out"; }; then
    echo "request $n of $all: status $status" >&2
    exit 1
  fi
done
[ "$faults" -gt 0 ]
"$here/cpp.sh" "$library/out/liblezgauri.a"
echo "of $all requests for memory, $faults are told as fault 1 where they are refused"
echo "the examples for C and C++ print what they should, by themselves and under valgrind"
