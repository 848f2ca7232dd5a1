#!/usr/bin/env bash
# Times an index of locations, in memory, on 1,000 subscribers and on 10,000: `locate` of 100 of them beside `recover`, which opens
# the image in the same way; and 80,000 updates of random locations in one file, in two, and in four, on an image with an index and
# on one without. Prints times, and how often the one is the other. Outside the gate.
#
#     bench/index.sh [--rounds N] [PROGRAM [LOCKS]]
#         PROGRAM a path, or crates/dude/out/dude; the median of five runs, or of N
#         LOCKS how many locks keep the threads apart, as `run` takes them, or 1024
set -euo pipefail
shopt -s inherit_errexit
top=$(cd "$(dirname "$0")/.." && pwd)
. "$top/bench/figures.sh"
read_options "$@"
program=$(readlink -f "${words[0]:-$top/crates/dude/out/dude}") locks=${words[1]:-1024} count=80000
room=$(mktemp -d -p /dev/shm)
trap 'rm -rf "$room"' EXIT
cd "$room"
export GLIBC_TUNABLES=glibc.malloc.hugetlb=1:glibc.malloc.mmap_max=0:glibc.malloc.arena_max=1

# Makes an image of so many subscribers without an index, one with it, and four files of updates.
make_images() {
  local subscribers=$1 file
  "$program" plain.img format "$subscribers" $((12 * subscribers)) 4 256 > /dev/null 2>&1
  "$program" indexed.img xformat "$subscribers" $((12 * subscribers)) 4 256 > /dev/null 2>&1
  for file in 1 2 3 4; do
    awk -v file="$file" -v count="$count" -v subscribers="$subscribers" 'BEGIN {
      location = file
      for (i = 0; i < count; i++) {
        location = (location * 69069 + 1) % 4294967296
        printf "UPDATE_LOCATION,%015d,%.0f\n", 4 * (i * 7919 % (subscribers / 4)) + file, location + (location == 0)
      }
    }' > "$file.csv"
  done
}

# Runs a command on a copy of an image, and notes its microseconds under a name.
time_command() {
  local name=$1 image=$2 before after
  shift 2
  cp "$image" copy.img
  before=$(date +%s%N)
  "$program" copy.img "$@" > out 2> told
  after=$(date +%s%N)
  echo $(((after - before) / 1000)) >> "$name"
}

# The median microseconds of a command of an image, less those of opening it.
beyond_opening() {
  echo $(($(median "$1.$2") - $(median "$1.recover")))
}

for subscribers in 1000 10000; do
  rm -f plain.* indexed.*
  make_images "$subscribers"
  for ((round = 0; round < rounds; round++)); do
    for image in plain indexed; do
      time_command "$image.recover" "$image.img" recover
      time_command "$image.locate" "$image.img" locate 1000001 1000100 100
      [ "$(wc -l < out)" -eq 101 ]
      time_command "$image.one" "$image.img" run --locks "$locks" 1.csv
      time_command "$image.two" "$image.img" run --locks "$locks" 1.csv 2.csv
      time_command "$image.four" "$image.img" run --locks "$locks" 1.csv 2.csv 3.csv 4.csv
    done
  done
  for image in plain indexed; do
    echo "$subscribers subscribers, $image: opened in $(($(median "$image.recover") / 1000)) ms," \
      "locate of 100 takes $(beyond_opening "$image" locate) microseconds more"
  done
  for files in one two four; do
    plain=$(beyond_opening plain "$files") indexed=$(beyond_opening indexed "$files")
    echo "$subscribers subscribers, $count updates a file, $files: $((plain / 1000)) ms, with an index $((indexed / 1000)) ms," \
      "$(ratio "$indexed" "$plain") times as long"
  done
done
