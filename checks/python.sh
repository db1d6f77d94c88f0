#!/usr/bin/env bash
# Tests the module for Python. Makes the shared library from the static one, compares its exports with lezgauri.h, runs the tests in
# python/tests, and compares what the examples print. Needs Python 3.9 or later, a C compiler, nm, and the library that
# `rt lib` builds in crates/lezgauri_c/out, or another given one, static or shared: python.sh [LIBRARY]. PYTHON may name the program.
set -eu
here=$(cd "$(dirname "$0")" && pwd)
root=$(dirname "$here")
library=$(realpath "${1:-$root/crates/lezgauri_c/out/liblezgauri.a}")
python=${PYTHON:-python3}
work=$(mktemp -d)
trap 'rm -rf "$work"' EXIT

case $library in
  *.a) "$root/python/shared.sh" "$library" "$work/liblezgauri.so" ;;
  *) cp "$library" "$work/liblezgauri.so" ;;
esac
export LEZGAURI_LIBRARY=$work/liblezgauri.so PYTHONPATH=$root/python PYTHONDONTWRITEBYTECODE=1

sed -nE 's/^(uint32_t |void |const char \*)(lezgauri_[a-z_]+)\(.*/\2/p' "$root/crates/lezgauri_c/include/lezgauri.h" | sort > "$work/calls"
nm -D --defined-only "$LEZGAURI_LIBRARY" | awk '{ print $3 }' | sort > "$work/exports"
diff "$work/calls" "$work/exports"

"$python" -X dev -m unittest discover -s "$root/python/tests"

# three runs of six steps, each of which adds 1 to the number, 41 at first
cat > "$work/counter.wanted" <<'EOF'
6 steps at most
6 steps: 42
6 steps: 43
6 steps: 44
EOF
counter=("$python" -X dev "$root/examples/python/counter.py")
cp "$root/examples/counter.image" "$work/image"
"${counter[@]}" "$work/image" "$root/examples/increment.client" > "$work/out"
diff "$work/counter.wanted" "$work/out"
# the file has the new number, and the next runs continue there
"${counter[@]}" "$work/image" "$root/examples/increment.client" > "$work/out"
[ "$(tail -n 1 "$work/out")" = "6 steps: 47" ]
# a client that isn't one, and an image that isn't one
status=0
"${counter[@]}" "$work/image" "$root/examples/increment.text" 2> "$work/err" || status=$?
[ "$status" = 1 ] && grep -qx "BAD_CODE at byte 0 of client 0: a field .*" "$work/err"
cp "$root/examples/increment.client" "$work/image"
status=0
"${counter[@]}" "$work/image" "$root/examples/increment.client" 2> "$work/err" || status=$?
[ "$status" = 1 ] && grep -qx "BAD_HEADER: the image's header or its length is wrong" "$work/err"

# one writer and three readers of a table, in processes of their own
[ "$("$python" -X dev "$root/examples/python/shared_table.py" "$work/table")" = "3 readers saw 20 customers; customer 20 has 200" ]
status=0
"$python" -X dev "$root/examples/python/shared_table.py" "$work/none/table" 2> "$work/err" || status=$?
[ "$status" = 1 ] && grep -q "No such file" "$work/err"
echo "the shared library exports the calls of lezgauri.h, and the examples for Python print what they should"
