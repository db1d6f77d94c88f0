#!/usr/bin/env bash
# Runs all checks, and writes a report: checks/release.sh [--quick] [--skip NAME].. [FOLDER]. FOLDER, `out/release` if it
# isn't given, gets the report `report.md`, and what each check printed in `NAME.log`. The report has the versions of
# the programs that were used, and for each check its result, its time and its last line. --quick runs fewer random
# inputs, and neither `rt ci`, the second build nor the longest checks. --skip leaves out the check with this name, as
# the report calls it. Each check that isn't run has a row that says why. The status is 1 if a check failed, or if
# there is no check with a name that was to be skipped. Needs what the checks need (docs/TESTING.md), and what `make`
# builds. WITH may name a folder with a build of the same commit, which is then compared with one more build instead
# of two (checks/reproducible.sh).
set -u
here=$(cd "$(dirname "$0")" && pwd)
root=$(dirname "$here")
quick=
skipped=" "
while :; do
  case "${1-}" in
    --quick) quick=1 && shift ;;
    --skip) skipped+="${2:?which check} " && shift 2 ;;
    -*) echo "usage: $0 [--quick] [--skip NAME].. [FOLDER]" >&2 && exit 2 ;;
    *) break ;;
  esac
done
mkdir -p "${1:-$root/out/release}"
folder=$(realpath "${1:-$root/out/release}")
report=$folder/report.md
cd "$root" || exit 2

version_of() { "$@" 2>&1 | head -1; }

# the SHA-256 of a file
sum_of() { if [ -f "$1" ]; then sha256sum < "$1" | cut -c1-64; else echo "none"; fi; }

{
  echo "# Release checks"
  echo
  echo "| What | Version |"
  echo "|---|---|"
  echo "| commit | $(git rev-parse --short HEAD)$(git diff --quiet HEAD || echo ", with changes") |"
  echo "| date | $(date -u +%FT%TZ) |"
  echo "| segtool | $(version_of crates/segtool/out/segtool --version) |"
  echo "| segtool, SHA-256 | $(sum_of crates/segtool/out/segtool) |"
  echo "| liblezgauri.a, SHA-256 | $(sum_of crates/lezgauri_c/out/liblezgauri.a) |"
  echo "| toolchain | $(sed -n 's/.*toolchain, `\([^`]*\)`.*/\1/p' README.md) |"
  for program in "${CC:-cc}" clang python3 valgrind bash; do
    command -v "$program" > /dev/null && echo "| $program | $(version_of "$program" --version) |"
  done
  echo "| system | $(uname -srm), $(nproc) processors |"
  echo
  echo "| Check | Result | Seconds | Last line |"
  echo "|---|---|---|---|"
} > "$report"

failed=0 passed=0 left_out=0

# writes a check's row: its name, its result, its seconds and its last line
row() { echo "| \`$1\` | $2 | $3 | $4 |" | tee -a "$report"; }

# runs a check, and writes its row
check() {
  local name=$1 result=passed status=0 begun=$SECONDS
  shift
  if [[ $skipped == *" $name "* ]]; then
    skipped=${skipped/ $name / }
    left_out=$((left_out + 1))
    row "$name" "not run: left out by \`--skip\`" 0 ""
    return
  fi
  "$@" > "$folder/$name.log" 2>&1 < /dev/null || status=$?
  case $status in
    0) passed=$((passed + 1)) ;;
    77) result="not run: it lacks what it needs" && left_out=$((left_out + 1)) ;;
    *) result="failed, status $status" && failed=$((failed + 1)) ;;
  esac
  row "$name" "$result" $((SECONDS - begun)) "$(tail -1 "$folder/$name.log" | cut -c1-150 | tr '|' ' ')"
}

# runs a check, unless the run is a quick one
long_check() {
  if [ -z "$quick" ]; then
    check "$@"
  else
    skipped=${skipped/ $1 / }
    left_out=$((left_out + 1))
    row "$1" "not run: left out by \`--quick\`" 0 ""
  fi
}

# the second number in a quick run, else the first
count() { [ -n "$quick" ] && echo "$2" || echo "$1"; }

long_check ci rt ci
long_check bench_calls ./build.py bench_calls
check files checks/files.sh
check refused_memory checks/refused_memory.sh
check power checks/power.py
check failures checks/failures.py
check kill checks/kill.sh "$(count 10000 300)"
check mapped checks/mapped.sh "$(count 10000 300)"
check c_examples checks/c_examples.sh
check python checks/python.sh
check install checks/install.sh
check completion checks/completion.sh
check printed checks/printed.py crates/segtool/out/segtool
check terminal checks/terminal.py crates/segtool/out/segtool
check changing checks/changing.py
check texts checks/texts.py
check english checks/english.py
check picture bench/picture.py --check
check growth_picture bench/growth_picture.py --check
check boost checks/boost.sh "$(count 10000 100)"
check dumps checks/dumps.py crates/segtool/out/segtool --count "$(count 10000 100)"
check programs checks/programs.py random --count "$(count 10000 100)"
check damaged_programs checks/programs.py damaged --count "$(count 100000 1000)"
check core checks/core.py "$(count 10000 1000)"
check bases checks/bases.sh "$(count 2000 50)"
check fuzz checks/fuzz.sh "$(count 3600 40)"
check fuzz_sanitized checks/fuzz.sh --sanitized "$(count 3600 40)"
check fuzz_libfuzzer checks/fuzz.sh --libfuzzer "$(count 3600 40)"
check fuzz_afl checks/fuzz.sh --afl "$(count 3600 40)"
long_check random checks/random.sh 32000
long_check edits checks/edits.sh
long_check reproducible checks/reproducible.sh ${WITH:+--with "$WITH"}
long_check limits bench/limits.py crates/segtool/out/segtool
echo >> "$report"
for name in $skipped; do
  echo "There is no check \`$name\` to skip." | tee -a "$report"
  failed=$((failed + 1))
done
echo "$passed checks passed, $failed failed, $left_out weren't run." | tee -a "$report"
[ "$failed" = 0 ]
