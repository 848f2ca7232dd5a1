#!/usr/bin/env bash
# Lets two processes at one image, and prints how often each pair of statuses came: first both make it, in so many tries
# (200); then, while one drives a load of eight files, each on a thread, every command is tried on its image. Ends with 1 where
# an image was lost.
#
#     bench/two.sh [PROGRAM] [TRIES]
set -u
top=$(cd "$(dirname "$0")/.." && pwd)
program=$(readlink -f "${1:-$top/crates/dude/out/dude}")
tries=${2:-200}
room=$(mktemp -d)
trap 'rm -rf "$room"' EXIT
cd "$room" || exit 1
status=0

for _ in $(seq "$tries"); do
  rm -f made.img*
  "$program" made.img format 1000 12000 4 256 > /dev/null 2>&1 & first=$!
  "$program" made.img format 1000 12000 4 256 > /dev/null 2>&1 & second=$!
  wait "$first"; a=$?
  wait "$second"; b=$?
  "$program" made.img recover > out 2> /dev/null || { echo "an image that two made doesn't recover"; status=1; }
  [ "$(echo made.img*)" = made.img ] || { echo "left: $(echo made.img*)"; status=1; }
  echo "both make it: $(printf '%s\n' "$a" "$b" | sort | paste -sd' ')"
done | sort | uniq -c
"$program" kept.img format 1000 12000 8 256 > /dev/null 2>&1
"$program" kept.img drive 1 99999 8 > drive.out 2> drive.err & driver=$!
until grep -q durable drive.err 2> /dev/null; do sleep 0.01; done
echo SYNC > sync.csv
for words in dump recover 'run sync.csv' 'fresh 8 sync.csv' 'format 8 96 2 16' 'drive 1 5 2'; do
  begun=$(date +%s%N)
  "$program" kept.img $words > out 2> err
  found=$?
  echo "beside a drive, $words: $found, $(cat err), $(($(date +%s%N) - begun >> 20)) ms"
  [ "$found" = 6 ] && [ ! -s out ] || status=1
done
kill -0 "$driver" 2> /dev/null || { echo "the drive was over before the others had their turn"; status=1; }
kill -9 "$driver"
wait "$driver" 2> /dev/null
told=$(tail -n 1 drive.err)
[ "$("$program" kept.img recover 2> /dev/null)" = "last ${told#durable }" ] || [ "$("$program" kept.img recover 2> /dev/null | cut -d' ' -f2)" -ge "${told#durable }" ] || { echo "the image lost what was told: $told"; status=1; }
echo "told before the kill: $told; recovered: $("$program" kept.img recover 2> /dev/null)"
exit "$status"
