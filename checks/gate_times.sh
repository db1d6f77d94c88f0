#!/usr/bin/env bash
# Measures the time of the gate. Works on a new clone of the last commit. No other job should run on the machine.
#
#   gate_times.sh gate                  runs the gate, and prints a table: the processor minutes of each crate's proof, of its
#                                       edits and of its tests. The gate's own output goes to the error output
#   gate_times.sh functions [SECONDS]   checks each crate and each crate of tests by itself, on one processor, and lists the
#                                       functions that take at least SECONDS, by default 10. Needs make
set -euo pipefail
here=$(cd "$(dirname "${BASH_SOURCE[0]}")" && pwd)
tab=$'\t'

# The crates, one per line.
crates() {
  awk -F: '!/^#/ && NF {sub(/ .*/, "", $1); print $1}' crates.txt
}

# For each running process of the prover: its number, its purpose, the crate, and its processor time in hundredths of a second.
provers() {
  local it words what crate
  for it in $(pgrep -f 'rattle (check|build) --crate-name' || true); do
    words=$(tr '\0' ' ' < "/proc/$it/cmdline") || continue
    crate=${words#*--crate-name }
    crate=${crate%% *}
    what=proof
    case "$(readlink "/proc/$it/cwd") $words" in
      */rt-edit-*) what=edits ;;
      *" --test "*) what=tests ;;
    esac
    awk -v it="$it" -v what="$what" -v crate="$crate" -v OFS="$tab" \
      '{sub(/.*\) /, ""); print it, what, crate, $12 + $13}' "/proc/$it/stat" || true
  done 2> /dev/null
}

# Prints the table, with a row for each crate, from the last known processor time of each prover.
table() {
  local minutes
  minutes=$(awk -F "$tab" -v OFS="$tab" '{last[$1 OFS $2 OFS $3] = $4}
    END {for (it in last) {split(it, part, OFS); sum[part[2] OFS part[3]] += last[it]; sum[part[2] OFS "all"] += last[it]}
         for (it in sum) printf "%s\t%.1f\n", it, sum[it] / 6000}' "$1")
  printf '| Crate | Proof | Edits | Tests |\n|---|---|---|---|\n'
  local crate
  for crate in $(crates) all; do
    awk -F "$tab" -v crate="$crate" '$2 == crate {it[$1] = $3}
      END {printf "| %s | %s | %s | %s |\n", crate, it["proof"], it["edits"], it["tests"]}' <<< "$minutes"
  done
}

gate() {
  local seen=$room/seen start=$SECONDS status=0
  (while sleep 1; do provers >> "$seen"; done) &
  local watcher=$!
  (cd "$room/clone" && rt ci) >&2 || status=$?
  kill "$watcher"
  cd "$room/clone"
  table "$seen"
  printf '\nThe gate ended with status %s after %s minutes on %s processors.\n' "$status" "$(((SECONDS - start) / 60))" "$(nproc)"
}

# Whether another crate of the clone depends on this one.
is_below_another() {
  grep -q "^[^#]*:.* $1\( \|\$\)" "$room/clone/crates.txt"
}

# Checks one crate on one processor, in a copy with links to the libraries built so far, since checks that use the same library
# wait for each other. Writes a log of the output's lines, each with its time.
check_crate() {
  local crate=$1 copy it
  copy=$(mktemp -d "$room/part.XXXXXX")
  cp -r "$room/clone/." "$copy"
  for it in "$room"/built/*/; do
    [ -d "$it" ] && mkdir "$copy/crates/$(basename "$it")/out" && cp -al "$it/rlib" "$copy/crates/$(basename "$it")/out"
  done
  cd "$copy/crates/$crate"
  local flags=(--progress --jobs 1)
  case $crate in test_*) flags+=(--test) ;; esac
  rt check "${flags[@]}" 2>&1 | while IFS= read -r line; do echo "$EPOCHREALTIME $line"; done > "$room/logs/$crate"
  if is_below_another "$crate"; then
    rt lib --jobs 1 > /dev/null
    mkdir out/built
    mv out/rlib out/built
    mv out/built "$room/built/$crate"
  fi
  rm -rf "$copy"
}

# Prints a make rule for each crate, which depends on the crates that it uses.
rules() {
  local crate below it
  while IFS=: read -r crate below; do
    case $crate in '' | \#*) continue ;; esac
    printf '%s:' "${crate%% *}"
    for it in $below; do
      [ -d "crates/$it" ] && printf ' %s' "$it"
    done
    printf '\n\t@bash $(SCRIPT) crate %s\n' "$crate"
  done < crates.txt
  printf 'all: %s\n' "$(crates | tr '\n' ' ')"
}

# The time of a log's first function includes reading the libraries, so that function isn't listed.
functions() {
  mkdir "$room"/{built,logs}
  cd "$room/clone"
  rules > "$room/rules"
  export room
  make -s -f "$room/rules" -j "$(nproc)" -k SCRIPT="$here/gate_times.sh" all >&2 || echo "not all of it is proved" >&2
  awk -v least="$1" '
    FNR == 1 {before = 0}
    $2 == "checked" {
      if (before && $1 - before >= least) printf "%4.0f s  %s\n", $1 - before, substr($3, 1, length($3) - 1)
      before = $1
    }' "$room"/logs/* | sort -rn
}

case ${1:-} in
  crate) check_crate "$2" ;;
  gate | functions)
    room=$(mktemp -d)
    trap 'rm -rf "$room"' EXIT
    git clone -q "$here/.." "$room/clone"
    "$1" "${2:-10}"
    ;;
  *)
    sed -n '2,/^set/{/^#/s/^# \{0,1\}//p}' "${BASH_SOURCE[0]}"
    exit 2
    ;;
esac
