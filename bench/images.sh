#!/usr/bin/env bash
# Measures whole images: runs of an empty client on 1 KiB, 1 MiB and 64 MiB, which make a file or find that it has their bytes
# already, checks of 64 MiB with few and with many blocks, and for comparison copying (also with a sync) and reading a file of
# 64 MiB.
#
#   images.sh SEGTOOL
#
# Prints the fastest of ROUNDS runs (by default 5): wall, user and system time in milliseconds, page faults, and MiB.
set -euo pipefail
segtool=${1:?the program segtool}
rounds=${ROUNDS:-5}
here=$(cd "$(dirname "${BASH_SOURCE[0]}")" && pwd)
work=$(mktemp -d)
trap 'rm -rf "$work"' EXIT

# prints a row: takes its name, and the command. Before each round it removes the file NEW, if that is set.
row() {
  local name=$1
  shift
  printf '%-36s ' "$name"
  for _ in $(seq "$rounds"); do
    python3 - "$@" << 'P'
import contextlib, os, subprocess, sys, time
with contextlib.suppress(FileNotFoundError, KeyError):
    os.remove(os.environ["NEW"])
start = time.perf_counter()
child = subprocess.Popen(sys.argv[1:], stdout=subprocess.DEVNULL)
_, status, used = os.wait4(child.pid, 0)
wall = time.perf_counter() - start
child.returncode = os.waitstatus_to_exitcode(status)
if child.returncode:
    raise SystemExit(f"{sys.argv[1:]}: status {child.returncode}")
times = (wall * 1e3, used.ru_utime * 1e3, used.ru_stime * 1e3)
print(*(f"{it:9.1f}" for it in times), f"{used.ru_minflt:9d} {used.ru_maxrss >> 10:6d}")
P
  done | sort -n | head -1
}

# assembles a client of bench/clients with this number of iterations
client() {
  sed "s/@N/$2/g" "$here/clients/$1.text" > "$work/$1.text"
  "$segtool" asm "$work/$1.text" "$work/$1"
}

printf '%-36s %9s %9s %9s %9s %6s\n' work wall user system faults MiB
client empty 0
for size in 1024 $((1 << 20)) $((64 << 20)); do
  "$segtool" new "$work/image" "$size" best tree
  NEW=$work/saved row "run of nothing, $size bytes" "$segtool" run "$work/image" "$work/saved" "$work/empty"
  row "the same, to a file with these bytes" "$segtool" run "$work/image" "$work/saved" "$work/empty"
done
row "check, 64 MiB, one gap" "$segtool" check "$work/image"
client arrays 130
"$segtool" run "$work/image" "$work/large" "$work/arrays" > "$work/printed"
row "check, 64 MiB, 130 blocks" "$segtool" check "$work/large"
client nodes 1000000
"$segtool" new "$work/image" $((64 << 20)) seq flat
"$segtool" run "$work/image" "$work/small" "$work/nodes" > "$work/printed"
row "check, 64 MiB, 1,000,000 blocks" "$segtool" check "$work/small"
NEW=$work/saved row "run of nothing, 1,000,000 blocks" "$segtool" run "$work/small" "$work/saved" "$work/empty"
NEW=$work/saved row "cp of 64 MiB" cp "$work/image" "$work/saved"
NEW=$work/saved row "cp of 64 MiB, and its sync" sh -c 'cp "$1" "$2" && sync "$2" "${2%/*}"' sh "$work/image" "$work/saved"
row "cat of 64 MiB" cat "$work/image"
