#!/usr/bin/env bash
# Runs each command of the program once for each request for host memory that it makes, with that request refused. Then the
# status is 1, the error is `fault 1`, and no file has changed; or the program doesn't need the memory, and all is as usual.
# Needs a C compiler, and the program that build.py makes in crates/segtool/out, or another given program.
set -eu
here=$(cd "$(dirname "$0")" && pwd)
segtool=$(realpath "${1:-$here/../crates/segtool/out/segtool}")
work=$(mktemp -d)
trap 'rm -rf "$work"' EXIT

cc -O1 -shared -fPIC -o "$work/refuse.so" "$here/refuse.c" -ldl
mkdir "$work/files"
cp "$here"/../examples/{counter.image,increment.client,increment.text,increment.lez} "$work/files"
"$segtool" new "$work/files/table.image" 1024 best tree
"$segtool" dump "$work/files/counter.image" > "$work/files/counter.dump"

# makes a new copy of the files
renew() {
  rm -rf "$work/now"
  cp -r "$work/files" "$work/now"
  cd "$work/now"
}

# with --explain the fault may be explained too
is_refused() {
  [ "$1" = 1 ] || return
  case $(cat "$work/err") in
    "fault 1" | "fault 1"$'\n'"the host refused a request for memory") diff -r "$work/files" "$work/now" > "$work/diff" ;;
    *) return 1 ;;
  esac
}

is_done() {
  [ "$1" = 0 ] && cmp -s "$work/wanted_out" "$work/out" && diff -r "$work/wanted" "$work/now" > "$work/diff"
}

# tries a command, first with all memory, which counts the requests, and then with each request refused
try() {
  local all n status refused=0
  renew
  REQUESTS="$work/requests" LD_PRELOAD="$work/refuse.so" "$segtool" "$@" > "$work/wanted_out"
  all=$(cat "$work/requests")
  rm -rf "$work/wanted"
  cp -r "$work/now" "$work/wanted"
  for n in $(seq 1 "$all"); do
    renew
    status=0
    REFUSE=$n LD_PRELOAD="$work/refuse.so" "$segtool" "$@" > "$work/out" 2> "$work/err" || status=$?
    if is_refused "$status"; then
      refused=$((refused + 1))
    elif ! is_done "$status"; then
      echo "$*: request $n of $all: status $status" >&2
      cat "$work/err" "$work/diff" >&2
      exit 1
    fi
  done
  echo "$*: $all requests, $refused of them needed"
}

try new fresh.image 1024 seq flat
try new table.image 2048 seq flat
try check counter.image
try verify counter.image increment.client
try run counter.image saved.image increment.client
try run counter.image table.image increment.client --input increment.text
try run table.image table.image increment.client --room 4096 --base 64
try stat counter.image
try stat counter.image --all
try list counter.image
try list counter.image --types
try types counter.image
for command in check stat list types show map; do
  try $command counter.image --json
done
try verify counter.image increment.text --explain
try run counter.image saved.image increment.text --keep-on-failure
try trace counter.image increment.text
try show counter.image
try show counter.image x --all
try get counter.image x
try set counter.image x 5
try del counter.image x
try dump counter.image
try load counter.dump table.image
try diff counter.image table.image
try map counter.image
try map counter.image --svg heap.svg
try trace counter.image increment.client
try grow counter.image 64
try shrink table.image
try upgrade counter.image
try asm increment.text assembled.client
try asm increment.text increment.client
try compile increment.lez compiled.client
try compile increment.lez increment.client --on counter.image
try verify counter.image increment.lez
try verify counter.image increment.lez --explain
try run counter.image saved.image increment.lez increment.client
try trace counter.image increment.lez
try trace counter.image increment.client increment.lez --only x --last 4 --changes
try print increment.client
try --version
