#!/usr/bin/env bash
# Measures the speed of two builds of the program, before and after a change, and of other stores, and draws a picture of it:
# bench/drive.sh and bench/stores.sh, whose figures go to bench/speed.csv, and bench/picture.py, which draws docs/speed.svg.
# Prints what they print. Both files are written anew at the end, when all went well. For a machine that does nothing else;
# it takes some minutes. Outside the gate. Needs what those scripts need.
#
#     bench/speed.sh [--rounds N] [FOLDER [MEMORY]] BEFORE AFTER
#         FOLDER on a disk, or here; MEMORY one in memory, or /dev/shm
#         BEFORE, AFTER the programs, each a path or NAME=PATH, where the name stands in the figures: before and after
#         --rounds N takes the median of N runs in place of five
set -euo pipefail
shopt -s inherit_errexit
top=$(cd "$(dirname "$0")/.." && pwd)
. "$top/bench/figures.sh"
read_options "$@"
case ${#words[@]} in
  2) folder=. memory=/dev/shm ;;
  3) folder=${words[0]} memory=/dev/shm ;;
  4) folder=${words[0]} memory=${words[1]} ;;
  *) sed -n 's/^#     //p' "$0" >&2; exit 1 ;;
esac
before=${words[-2]} after=${words[-1]}
[[ $before =~ $named ]] || before=before=$before
[[ $after =~ $named ]] || after=after=$after
figures=$top/bench/speed.csv picture=$top/docs/speed.svg
room=$(mktemp -d)
trap 'rm -rf "$room"' EXIT

echo "$(machine "$folder" "$memory"); load $(cut -d ' ' -f 1 /proc/loadavg); median of $rounds runs"
"$top/bench/drive.sh" --csv "$room/speed.csv" --rounds "$rounds" "$folder" "$memory" "$before" "$after"
"$top/bench/stores.sh" --csv "$room/speed.csv" --rounds "$rounds" "$folder" "$memory" "${after#*=}"
python3 "$top/bench/picture.py" "$room/speed.csv" "$room/speed.svg"
cp "$room/speed.csv" "$figures"
cp "$room/speed.svg" "$picture"
echo "in $SECONDS s: $(grep -c '^disk\|^memory' "$figures") figures in $figures, drawn in $picture;" \
  "load $(cut -d ' ' -f 1 /proc/loadavg)"
