#!/usr/bin/env bash
# Tries the must-fail edits in checks/edits/CRATE/, which the gate leaves out to save time: wrong bodies of calls that only Lezgauri's own
# crates make, of exports for C beside one of the same file, and of single clauses of other calls. The prover must refuse each. What an
# inner call promises is used by the proofs of the calls above, whose edits the gate tries.
#
#   edits.sh [CRATE..]    tries the edits of these crates, or of all, on the last commit. Proves each of them first, unless a gate on
#                         this machine did
#   edits.sh --apply      only tests that each edit can be applied
set -euo pipefail
cd "$(dirname "${BASH_SOURCE[0]}")/.."

apply() {
  python3 - <<'PY'
import pathlib, sys

wrong = 0
for edit in sorted(pathlib.Path("checks/edits").glob("*/*.edit")):
    path, old = None, None
    for line in edit.read_text().splitlines():
        if line.startswith("file: "):
            path = pathlib.Path("crates", edit.parent.name, line.removeprefix("file: "))
        elif line.startswith("old: "):
            old = line.removeprefix("old: ")
            if path is None or not path.is_file() or path.read_text().count(old) != 1:
                print(f"{edit}: its text isn't in {path} exactly once", file=sys.stderr)
                wrong += 1
    if old is None:
        print(f"{edit}: changes nothing", file=sys.stderr)
        wrong += 1
sys.exit(wrong > 0)
PY
}

if [ "${1:-}" = --apply ]; then
  apply
  exit
fi
apply
if [ $# = 0 ]; then
  mapfile -t crates < <(ls checks/edits)
else
  crates=("$@")
fi
copy=$(mktemp -d)
trap 'rm -rf "$copy"' EXIT
git clone -q . "$copy/main"
for crate in "${crates[@]}"; do
  mkdir -p "$copy/main/crates/$crate/must-fail"
  cp "checks/edits/$crate"/*.edit "$copy/main/crates/$crate/must-fail"
done
cd "$copy/main"
# not every release of rt takes the names of crates here
case "$(rt help 2>&1)" in
  *"rt ci NAME"* | *"rt ci [NAME"*) rt ci "${crates[@]}" ;;
  *) rt must-fail "${crates[@]}" ;;
esac
