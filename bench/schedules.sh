#!/usr/bin/env bash
# Plays random schedules of the machine with its medium, by the program of tests and by a reference that is written from the
# machine's definitions (bench/core_reference.py), and compares what they print, digests of all that the machine has among it.
# Prints how many lines were the same; the first schedule with a line that differs is kept, and it ends with 1. Outside the gate.
#
#     bench/schedules.sh [--first SEED] [--runs N] [--events N] [PROGRAM]
#         20 schedules from seed 1 on, of 10,000 events each; PROGRAM a path, or crates/all_runs/out/all_runs
set -euo pipefail
top=$(cd "$(dirname "$0")/.." && pwd)
first=1 runs=20 events=10000
while [ $# -gt 1 ]; do
  case $1 in
    --first) first=$2 ;;
    --runs) runs=$2 ;;
    --events) events=$2 ;;
    *) break ;;
  esac
  shift 2
done
program=$(readlink -f "${1:-$top/crates/all_runs/out/all_runs}")
room=$(mktemp -d)
lines=0
for ((seed = first; seed < first + runs; seed++)); do
  python3 "$top/bench/core_reference.py" --schedule "$seed" "$events" > "$room/script"
  python3 "$top/bench/core_reference.py" < "$room/script" > "$room/wanted"
  { echo "=== core_runs"; cat "$room/script"; } | "$program" | tail -n +2 > "$room/printed"
  if ! cmp "$room/wanted" "$room/printed"; then
    echo "seed $seed: they differ; the script and what each printed is in $room"
    exit 1
  fi
  lines=$((lines + $(wc -l < "$room/wanted")))
done
rm -r "$room"
echo "$runs schedules of some $events events: $lines lines, none different"
