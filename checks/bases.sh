#!/usr/bin/env bash
# Runs random clients with segments at different bases: checks/bases.sh [COUNT] [SEED]. COUNT clients, 200 if it isn't
# given, run twice on segments of each allocator and index, at each base and in rooms of different sizes. The output and
# the saved image must be the same, byte for byte. Needs a C compiler, the program in crates/segtool/out, or SEGTOOL, and
# the library in crates/lezgauri_c/out, or LIBRARY, for fuzz/, which makes the clients.
set -eu
here=$(cd "$(dirname "$0")" && pwd)
root=$(dirname "$here")
segtool=$(realpath "${SEGTOOL:-$root/crates/segtool/out/segtool}")
library=$(realpath "${LIBRARY:-$root/crates/lezgauri_c/out/liblezgauri.a}")
count=${1:-200}
seed=${2:-1}
[ -d /dev/shm ] && TMPDIR=${TMPDIR:-/dev/shm} && export TMPDIR
work=$(mktemp -d)
trap 'rm -rf "$work"' EXIT
"${CC:-cc}" -std=c11 -O1 -I"$root/crates/lezgauri_c/include" -Wl,--wrap=malloc,--wrap=realloc,--wrap=free \
  -o "$work/fuzz" "$root"/fuzz/{common,generate,mutate,program_text,targets,calls,memory,main}.c "$library"
mkdir "$work/clients"
"$work/fuzz" --corpus client "$seed" "$count" "$work/clients"
cd "$work"
head -c 1000 "$work/fuzz" > input

# runs a client twice, at a base and in a room; leaves the output and the image in files of this name
run() {
  local name=$1 client=$2
  shift 2
  cp image "$name"
  : > "$name.out"
  for _ in 1 2; do
    "$segtool" run "$name" "$name" "$client" --input input "$@" >> "$name.out" 2>> "$name.out" || echo "status $?" >> "$name.out"
  done
}

runs=0
accepted=0
for allocator in seq best; do
  for index in flat tree; do
    "$segtool" new image 65536 "$allocator" "$index" --force
    for client in clients/*; do
      run first "$client"
      grep -q '^fault' first.out || accepted=$((accepted + 1))
      for place in "--base 16" "--base 4096 --room 80000" "--base 1048560 --room 2097152"; do
        # shellcheck disable=SC2086
        run other "$client" $place
        runs=$((runs + 2))
        cmp first.out other.out && cmp first other || { echo "$allocator, $index, $client, $place" >&2 && exit 1; }
      done
    done
  done
done
echo "$count clients, $runs runs at other bases; $accepted of $((4 * count)) were accepted"
