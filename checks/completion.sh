#!/usr/bin/env bash
# Tests the completion of segtool's command line: in bash, and in fish and zsh if they are installed.
set -eu
cd "$(dirname "$0")/../examples"
completion=../packaging/completion
wrong=0

# compares a completion with what it should be; both are lists of words
is() {
  if [ "$2" != "$3" ]; then
    echo "$1: $2, and not $3" >&2
    wrong=$((wrong + 1))
  fi
}

of_bash() {
  # shellcheck disable=SC1091
  bash -c '. "$1/segtool.bash"; shift; COMP_WORDS=("$@"); COMP_CWORD=$(($# - 1)); _segtool; printf "%s\n" "${COMPREPLY[@]}"' \
    bash "$completion" "$@" | LC_ALL=C sort | paste -sd " "
}

of_fish() {
  fish -N -c 'source $argv[1]/segtool.fish; complete -C "$argv[2..-1]"' "$completion" "$@" | cut -f 1 | LC_ALL=C sort | paste -sd " "
}

# tests one completion in each shell that can be asked
completes() {
  local wanted=$1
  shift
  is "bash: $*" "$(of_bash "$@")" "$wanted"
  if command -v fish > /dev/null; then
    is "fish: $*" "$(of_fish "$@")" "$wanted"
  fi
}

completes run segtool r
completes "set show shrink stat" segtool s
completes run segtool help r
completes "best seq" segtool new some.image 4096 ""
completes "flat tree" segtool new --force some.image 4096 best ""
completes "" segtool new some.image 40
completes "--force" segtool new --f
completes "--base --explain --force --help --input --keep-on-failure --room" segtool run counter.image --
completes "" segtool run --base 1
completes "--help --version" segtool --
completes "count.lez count.text counter.image" segtool run coun
completes "count.lez count.text counter.image" segtool run a b c d coun
completes "count.lez count.text counter.image" segtool trace --input coun
completes "count.lez count.text counter.image" segtool trace counter.image a b coun
completes "" segtool trace counter.image --only coun
completes "--changes --explain --help --input --last --only --step" segtool trace counter.image --
completes "cache.lez cache.text" segtool run --base 16 cach
completes "" segtool check counter.image coun
completes "" segtool get counter.image coun
completes "--explain --force --help --on" segtool compile count.lez out --
completes "counter.image" segtool compile count.lez out --on counter

if command -v zsh > /dev/null; then
  zsh -n "$completion/_segtool" || wrong=$((wrong + 1))
fi
[ "$wrong" = 0 ]
echo "the completion of segtool's command line is right"
