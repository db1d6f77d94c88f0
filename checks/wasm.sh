#!/usr/bin/env bash
# Compares the page's module with segtool: builds web/out/lezgauri.wasm, and runs both on the examples, on the images of the checker's
# tests, on the programs of the tests, and on damaged images, texts and programs. If a browser and its driver are installed, also drives
# the page in it.
#
#   wasm.sh [--built] [SEGTOOL]
#
# Needs Node 20.19 or later, python3, and the program that build.py makes, or another given one. The build needs `rt`; --built takes the
# module that is there. RANDOM_IMAGES is the number of damaged images, 1000 if it isn't set; BUILD has arguments of web/build.py.
set -eu
here=$(cd "$(dirname "$0")" && pwd)
root=$(dirname "$here")
built=
if [ "${1-}" = --built ]; then
  built=1
  shift
fi
segtool=$(realpath "${1:-$root/crates/segtool/out/segtool}")
module=$root/web/out/lezgauri.wasm
work=$(mktemp -d)
trap 'rm -rf "$work"' EXIT

if [ -z "$built" ]; then
  # shellcheck disable=SC2086
  "$root/web/build.py" ${BUILD-}
fi
"$here/test_images.py" "$work/images"
flag=
if ! node -e 'process.exit(WebAssembly.validate(Uint8Array.of(0, 97, 115, 109, 1, 0, 0, 0, 5, 3, 1, 4, 0)) ? 0 : 1)'; then
  flag=--experimental-wasm-memory64
fi
mkdir "$work/files"
node $flag "$here/wasm.mjs" "$segtool" "$module" "$work/images" "$work/files" "${RANDOM_IMAGES:-1000}"
if command -v chromedriver > /dev/null; then
  "$here/wasm_page.py" "$segtool"
else
  echo "the page wasn't tried: chromedriver isn't installed"
fi
