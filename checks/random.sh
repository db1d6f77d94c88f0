#!/usr/bin/env bash
# Runs random clients on segments and on a model without bytes, many more than the gate does: checks/random.sh COUNT [SEED]
# COUNT is the number of clients. A round is 320 clients, and the rounds have the seeds SEED, SEED + 1 and so on; SEED is 1 if it
# isn't given. Prints a line for each ten rounds, and for a failure the command that repeats it. First proves and builds the program,
# by `rt run` in crates/test_random. With PROGRAM set, runs that program.
set -eu
round=320
here=$(cd "$(dirname "$0")" && pwd)
crate=$here/../crates/test_random

is_number() { case "$1" in '' | *[!0-9]*) return 1 ;; esac; }

count=${1:-}
seed=${2:-1}
if ! is_number "$count" || ! is_number "$seed"; then
  echo "usage: checks/random.sh COUNT [SEED]" >&2
  exit 2
fi

if [ -z "${PROGRAM:-}" ]; then
  (cd "$crate" && rt run -- 0 0)
  PROGRAM=$crate/out/test_random
fi
err=$(mktemp)
trap 'rm -f "$err"' EXIT

# ten rounds at a time, to show the progress
done=0
begun=$SECONDS
while [ "$done" -lt "$count" ]; do
  batch=$((count - done))
  [ "$batch" -le $((10 * round)) ] || batch=$((10 * round))
  if ! "$PROGRAM" "$seed" "$batch" > /dev/null 2> "$err"; then
    cat "$err" >&2
    failed=$(sed -n 's/^Case { seed: \([0-9]*\),.*/\1/p' "$err")
    if [ -n "$failed" ]; then
      echo "to repeat: checks/random.sh $round $failed" >&2
    else
      echo "to repeat: checks/random.sh $batch $seed" >&2
    fi
    exit 1
  fi
  done=$((done + batch))
  seed=$((seed + (batch + round - 1) / round))
  echo "$done of $count clients, $((SECONDS - begun)) s"
done
