#!/usr/bin/env bash
# Compares builds of segtool and the library for C byte for byte: checks/reproducible.sh [--with FOLDER]
#
# Without an option it builds both twice, in copies of the repository in different folders. The second build of segtool
# proves and compiles every crate anew, and takes half an hour or more; of the library, it compiles the last crate anew.
#
# With --with there is one build, in a new folder. It is compared with `segtool` and `liblezgauri.a` in FOLDER, which
# another build of the same commit made; a file that FOLDER lacks isn't compared. The crates below the last one are taken
# from what `rt ci` kept on this machine, so `rt ci` must have passed before; the last crate is proved anew, and
# all code is compiled anew.
#
# Needs the toolchain `rt` and a C compiler. The status is 77 if nothing could be compared.
set -eu
here=$(cd "$(dirname "$0")" && pwd)
root=$(dirname "$here")
with=
case "${1-}" in
  --with) with=$(realpath "${2:?which folder}") ;;
  "") ;;
  *) echo "usage: $0 [--with FOLDER]" >&2 && exit 2 ;;
esac
work=$(mktemp -d)
trap 'rm -rf "$work"' EXIT
program=crates/segtool/out/segtool
library=crates/lezgauri_c/out/liblezgauri.a

# runs a command, and prints the end of what it said if it fails
quietly() {
  "$@" > "$work/log" 2>&1 || { tail -20 "$work/log" >&2 && exit 1; }
}

# copies the files of the commit to a folder
copy_to() {
  mkdir -p "$1"
  (cd "$root" && git ls-files -z | tar -cf - --ignore-failed-read --null -T -) | tar -xf - -C "$1"
}

# builds segtool, with every crate proved and compiled anew, as build.py does it
build_anew() {
  mkdir "$work/anew"
  python3 -c 'import build, pathlib, sys
crates = build.read_crates()
build.lay(pathlib.Path(sys.argv[1]), crates, build.needed(crates, "segtool"))' "$work/anew"
  (cd "$work/anew" && quietly rt ci --anew)
  mkdir -p "$(dirname "$program")"
  cp "$work/anew/$program" "$program"
}

# compares two files, and prints the sum of the first
compare() {
  cmp "$1" "$2"
  echo "$(sha256sum < "$1" | cut -c1-64)  $3"
}

if [ -n "$with" ]; then
  compared=
  copy_to "$work/another/folder"
  cd "$work/another/folder"
  if [ -f "$with/segtool" ]; then
    python3 "$here/kept_libraries.py" segtool || exit 77
    (cd crates/segtool && quietly rt run --jobs 1 -- --version)
    compare "$with/segtool" "$program" segtool
    compared+=" segtool"
  fi
  if [ -f "$with/liblezgauri.a" ]; then
    python3 "$here/kept_libraries.py" lezgauri_c || exit 77
    quietly crates/lezgauri_c/build.sh
    compare "$with/liblezgauri.a" "$library" liblezgauri.a
    compared+=" liblezgauri.a"
  fi
  [ -n "$compared" ] || { echo "$with has neither segtool nor liblezgauri.a" >&2 && exit 77; }
  echo "the same bytes as in $with:$compared"
  exit
fi

for copy in one another/folder; do
  copy_to "$work/$copy"
  cd "$work/$copy"
  if [ "$copy" = one ]; then quietly python3 build.py segtool; else build_anew; fi
  quietly python3 build.py lezgauri_c
done
for product in "$program" "$library"; do
  compare "$work/one/$product" "$work/another/folder/$product" "$(basename "$product")"
done
echo "two builds give the same bytes"
