#!/usr/bin/env bash
# Fuzzes the library for C, and commands of segtool: checks/fuzz.sh [--sanitized | --libfuzzer | --afl] SECONDS [SEED].
# Runs each target of fuzz/ for a part of the time, with random inputs of SEED, 1 if it isn't given, after the inputs of
# fuzz/corpus. Prints for each target what was done. Without an option it needs a C compiler alone; with --afl afl++ and
# clang, else clang. LIBRARY may name the static library, which is crates/lezgauri_c/out/liblezgauri.a otherwise, and
# OBJECT segtool's object file, crates/segtool/out/segtool.o otherwise; without it, the targets that need it are left
# out. fuzz/README.md describes the targets.
# shellcheck disable=SC2054
set -eu
here=$(cd "$(dirname "$0")" && pwd)
root=$(dirname "$here")
library=$(realpath "${LIBRARY:-$root/crates/lezgauri_c/out/liblezgauri.a}")
object=${OBJECT:-$root/crates/segtool/out/segtool.o}
how=plain
case "${1-}" in --sanitized | --libfuzzer | --afl) how=${1#--} && shift ;; esac
seconds=${1:?how many seconds}
seed=${2:-1}
work=$(mktemp -d)
trap 'rm -rf "$work"' EXIT

include=$root/crates/lezgauri_c/include
targets=(image client text calls memory)
sources=("$root"/fuzz/{common,generate,mutate,program_text,targets,calls,memory,main}.c)
flags=(-std=c11 -Wall -Wextra -Werror -O1 -g -I"$include" -Wl,--wrap=malloc,--wrap=realloc,--wrap=free)
sanitizers=(-fsanitize=address,undefined -fno-sanitize-recover=all)
# what makes and changes inputs, for afl-fuzz
mutator=("${flags[@]}" -DAFL_MUTATOR -fPIC -shared -Wl,-Bsymbolic "${sources[@]}" "$library")
more=()
if [ -f "$object" ] && command -v rt > /dev/null; then
  objcopy --redefine-sym main=segtool_main "$object" "$work/segtool.o"
  targets+=(program dump load)
  sources+=("$root"/fuzz/{programs,commands}.c)
  flags+=(-DSEGTOOL -Wl,--wrap=write)
  more=("$work/segtool.o" "$(dirname "$(rt doc)")/c/libos_c.a")
else
  echo "$object or rt isn't there, so the targets of segtool's commands are left out"
fi

"${CC:-cc}" "${flags[@]}" -o "$work/fuzz" "${sources[@]}" "${more[@]}" "$library"
case $how in
  plain) ;;
  # lezgauri.c is compiled again, since the library has it without the sanitizers
  sanitized)
    clang "${flags[@]}" "${sanitizers[@]}" -o "$work/fuzz" "${sources[@]}" "$include/lezgauri.c" "${more[@]}" "$library"
    ;;
  libfuzzer)
    clang "${flags[@]}" -DLIBFUZZER "${sanitizers[@]}" -fsanitize=fuzzer -o "$work/libfuzzer" "${sources[@]}" \
      "$include/lezgauri.c" "${more[@]}" "$library"
    ;;
  afl)
    AFL_QUIET=1 afl-clang-fast "${flags[@]}" -DAFL -o "$work/afl" "${sources[@]}" "$include/lezgauri.c" "${more[@]}" \
      "$library"
    "${CC:-cc}" -o "$work/mutator.so" "${mutator[@]}"
    ;;
esac

# the inputs of the repository for a target, if there are any
inputs_of() { find "$root/fuzz/corpus/$1" -type f 2> /dev/null || true; }

# the inputs that a target starts from
corpus_of() {
  mkdir -p "$work/corpus/$1"
  "$work/fuzz" --corpus "$1" "$seed" 100 "$work/corpus/$1"
  inputs_of "$1" | xargs -r -d '\n' cp -t "$work/corpus/$1"
}

fuzz_plain() {
  inputs_of "$1" | xargs -r -d '\n' "$work/fuzz" "$1" > /dev/null && "$work/fuzz" --for "$part" "$1" "$seed" && return
  cp "$work/fuzz" fuzz.failed
  echo "to repeat: ./fuzz.failed $1 failed.$1, or $1 with seed $seed" >&2
  exit 1
}

fuzz_libfuzzer() {
  corpus_of "$1"
  if ! TARGET=$1 "$work/libfuzzer" -seed="$seed" -max_len=100000 -max_total_time="$part" -timeout=60 \
    -artifact_prefix="failed.$1." "$work/corpus/$1" > "$work/out" 2>&1; then
    tail -40 "$work/out" >&2
    exit 1
  fi
  echo "$1: $(tail -1 "$work/out")"
}

fuzz_afl() {
  corpus_of "$1"
  if [ "$1" = calls ] || ! TARGET=$1 AFL_CUSTOM_MUTATOR_LIBRARY=$work/mutator.so run_afl "$1" > "$work/out" 2>&1; then
    run_afl "$1" > "$work/out" 2>&1 || { tail -40 "$work/out" >&2 && exit 1; }
  fi
  local stats=$work/found/$1/default/fuzzer_stats crash
  crash=$(find "$work/found/$1/default/crashes" -name 'id:*' | head -1)
  sed -n 's/^\(execs_done\|edges_found\|total_edges\|corpus_count\|saved_crashes\|saved_hangs\) *: \(.*\)/\2 \1/p' "$stats" |
    paste -sd, | sed "s/,/, /g; s/^/$1: /"
  if [ -n "$crash" ]; then
    cp "$crash" "failed.$1"
    "$work/fuzz" "$1" "failed.$1" || true
    exit 1
  fi
}

run_afl() {
  AFL_NO_UI=1 AFL_SKIP_CPUFREQ=1 AFL_NO_AFFINITY=1 AFL_I_DONT_CARE_ABOUT_MISSING_CRASHES=1 AFL_NO_COLOR=1 \
    afl-fuzz -V "$part" -s "$seed" -t 60000 -m none -i "$work/corpus/$1" -o "$work/found/$1" -- "$work/afl" "$1"
}

mkdir "$work/found"
part=$(((seconds + ${#targets[@]} - 1) / ${#targets[@]}))
for target in "${targets[@]}"; do
  if "$work/fuzz" --has "$target"; then
    case $how in
      libfuzzer | afl) "fuzz_$how" "$target" ;;
      *) fuzz_plain "$target" ;;
    esac
  else
    echo "$target: this segtool doesn't have the command"
  fi
done
