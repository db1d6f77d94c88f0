#!/usr/bin/env bash
# Installs Lezgauri in a temporary folder, and builds and runs the examples for C and C++ with what was installed: by pkg-config and
# by CMake, with the shared and with the static library. Also compares the generated pages and completions with segtool's help.
#
#   install.sh [SEGTOOL [ARCHIVE]]
#
# Needs make, a C and a C++ compiler, pkg-config, CMake, and what build.py makes of segtool and lezgauri_c, or another given program and
# static library. If one of the two isn't built, the status is 77.
set -eu
here=$(cd "$(dirname "$0")" && pwd)
root=$(dirname "$here")
segtool=${1:-$root/crates/segtool/out/segtool}
archive=${2:-$root/crates/lezgauri_c/out/liblezgauri.a}
for file in "$segtool" "$archive"; do
  if [ ! -f "$file" ]; then
    echo "skipped: $file isn't built" >&2
    exit 77
  fi
done
segtool=$(realpath "$segtool")
archive=$(realpath "$archive")
work=$(mktemp -d)
trap 'rm -rf "$work"' EXIT
prefix=$work/installed

"$root/packaging/man.py" --check "$segtool"
"$root/packaging/completion.py" --check "$segtool"
install() {
  make -s -C "$root" SEGTOOL="$segtool" ARCHIVE="$archive" OUT="$work/out" "$@"
}
install PREFIX="$prefix" install

# runs the two examples, and compares what they print
runs() {
  local name=$1
  shift
  "$prefix/bin/segtool" new --force "$work/cache.image" 4096 best tree
  "$work/$name.counter" "$root/examples/counter.image" "$root/examples/increment.client" > "$work/$name.out"
  "$work/$name.cache" "$work/cache.image" "$work/cache.client" >> "$work/$name.out"
  printf '%s\n' "6 steps at most" "6 steps: 42" "6 steps: 43" "6 steps: 44" "miss 4225" "miss 4356" "-- again" "hit 4356" "miss 4489" \
    "-- hit 42.. and more" | diff - "$work/$name.out"
}
"$prefix/bin/segtool" asm "$root/examples/cache.text" "$work/cache.client"

# with pkg-config
export PKG_CONFIG_PATH="$prefix/lib/pkgconfig"
read -ra flags <<< "$(pkg-config --cflags --libs lezgauri)"
read -ra flags_of_static <<< "$(pkg-config --static --cflags --libs lezgauri)"
cc -std=c11 -Wall -Wextra -Werror -o "$work/shared.counter" "$root/examples/c/counter.c" "${flags[@]}"
c++ -std=c++11 -Wall -Wextra -Werror -o "$work/shared.cache" "$root/examples/c/cache.cpp" "${flags[@]}"
LD_LIBRARY_PATH=$prefix/lib runs shared
c++ -std=c++17 -Wall -Wextra -Werror -o "$work/shared.mapped" "$root/examples/cpp/counter.cpp" "${flags[@]}"
cp "$root/examples/counter.image" "$work/mapped.image"
chmod u+w "$work/mapped.image"
LD_LIBRARY_PATH=$prefix/lib "$work/shared.mapped" "$work/mapped.image" "$root/examples/increment.client" > "$work/mapped.out"
printf '%s\n' "6 steps: 42" "6 steps: 43" "6 steps: 44" | diff - "$work/mapped.out"
cc -std=c11 -static -o "$work/static.counter" "$root/examples/c/counter.c" "${flags_of_static[@]}"
c++ -std=c++11 -static -o "$work/static.cache" "$root/examples/c/cache.cpp" "${flags_of_static[@]}"
runs static

# with CMake
mkdir "$work/source"
cat > "$work/source/CMakeLists.txt" <<EOF
cmake_minimum_required(VERSION 3.10)
project(uses C CXX)
find_package(lezgauri $(pkg-config --modversion lezgauri) REQUIRED)
foreach(kind lezgauri static)
  add_executable(\${kind}.counter $root/examples/c/counter.c)
  add_executable(\${kind}.cache $root/examples/c/cache.cpp)
  target_link_libraries(\${kind}.counter lezgauri::\${kind})
  target_link_libraries(\${kind}.cache lezgauri::\${kind})
endforeach()
EOF
# an installation that was moved is found too
cp -r "$prefix" "$work/moved"
for place in "$prefix" "$work/moved"; do
  rm -rf "$work/built"
  cmake -S "$work/source" -B "$work/built" -DCMAKE_PREFIX_PATH="$place" > "$work/cmake.log" || { cat "$work/cmake.log" >&2; exit 1; }
  cmake --build "$work/built" > "$work/cmake.log" || { cat "$work/cmake.log" >&2; exit 1; }
  grep -q "$place/lib/liblezgauri.so" "$work/built/CMakeFiles/lezgauri.counter.dir/link.txt"
  cp "$work"/built/*.counter "$work"/built/*.cache "$work"
  runs lezgauri
  runs static
done

# the version is the same everywhere
version=$(pkg-config --modversion lezgauri)
"$prefix/bin/segtool" --version | grep -q "^segtool $version "
[ -f "$prefix/lib/liblezgauri.so.$version" ]
[ "$(readlink -f "$prefix/lib/liblezgauri.so")" = "$prefix/lib/liblezgauri.so.$version" ]

# uninstalling leaves no file, also below DESTDIR
install PREFIX="$prefix" uninstall
[ -z "$(find "$prefix" ! -type d)" ]
install PREFIX=/usr DESTDIR="$work/staged" install
grep -q '^prefix=/usr$' "$work/staged/usr/lib/pkgconfig/lezgauri.pc"
if grep -rI "$work" "$work/staged"; then exit 1; fi
install PREFIX=/usr DESTDIR="$work/staged" uninstall
[ -z "$(find "$work/staged" ! -type d)" ]
echo "the examples run with what was installed, by pkg-config and by CMake"
