#!/usr/bin/env bash
# Tries the wrong bodies that the gate leaves out, crates/CRATE/more-fail/*.edit: the prover has to refuse each. Works on
# a copy, over what `rt check` kept, and ends with 0 where all are refused.
#
#     bench/edits.sh [CRATE..]     of these crates, or of all that have such edits
set -euo pipefail
top=$(cd "$(dirname "$0")/.." && pwd)
cd "$top"
[ $# -gt 0 ] || set -- $(find crates -path '*/more-fail/*.edit' | cut -d/ -f2 | sort -u)
room=$(mktemp -d)
trap 'rm -rf "$room"' EXIT
cp -a --reflink=auto crates crates.txt HANDLES "$room"
rm -rf "$room"/crates/*/must-fail
for crate in "$@"; do
  mv "$room/crates/$crate/more-fail" "$room/crates/$crate/must-fail"
done
cd "$room"
status=0
rt must-fail "$@" | tee "$room/log" || status=$?
echo "$(grep -c ': refused, as it must be' "$room/log" || true) of $(find crates -path '*/must-fail/*.edit' | wc -l) edits are refused"
exit "$status"
