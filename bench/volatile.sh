#!/usr/bin/env bash
# Times the load of `drive 1 80000 F` for F = 1, 2 and 4 threads, on 1,000 and on 10,000 subscribers, in a transactional
# memory in C that keeps nothing: word locks, a global clock, values written at the commit, as running transactions have
# them, on the same tables in words. It is what a durable one can be measured by. Prints requests a second, how often they
# are those of one thread, the transactions begun anew, and requests a second where all counts that `drive` does once its image
# is open: making the load, and the summary; and those of `drive` itself, run in turn with it on the same image, of four rings,
# so with one and two files a thread more takes turns. Outside the gate. Needs gcc.
#
#     bench/volatile.sh [--csv FILE] [--rounds N] [PROGRAM]
#         PROGRAM makes the images, and carries out the same loads; or crates/dude/out/dude
#         --csv appends a line for each figure to FILE; bench/figures.sh has its fields
#
# The first time is from the first request to the end of the last thread, with the load made before it: less than the time of
# `drive` less that of `recover`, which the second one is to be compared with. The medians of five runs, or of N. Each run's
# summary has to be the program's: no two files of a load share a subscriber, so it is the same in whatever order they run.
set -euo pipefail
shopt -s inherit_errexit
top=$(cd "$(dirname "$0")/.." && pwd)
. "$top/bench/figures.sh"
read_options "$@"
program=$(readlink -f "${words[0]:-$top/crates/dude/out/dude}") count=80000 locks=65536
room=$(mktemp -d -p /dev/shm)
trap 'rm -rf "$room"' EXIT
export GLIBC_TUNABLES=glibc.malloc.hugetlb=1:glibc.malloc.mmap_max=0:glibc.malloc.arena_max=1
gcc -std=gnu11 -O2 -Wall -Wextra -Werror -pthread -o "$room/volatile" "$top"/bench/volatile/*.c

# The microseconds that the program takes for a command on a copy of the image.
time_command() {
  local before after
  cp "$room/before.img" "$room/copy.img"
  before=$(date +%s%N)
  "$program" "$room/copy.img" "$@" > "$room/answered" 2> "$room/told"
  after=$(date +%s%N)
  echo $(((after - before) / 1000))
}

begin_figures "$csv" /dev/shm /dev/shm
for subscribers in 1000 10000; do
  one=
  for threads in 1 2 4; do
    image=$room/$subscribers.$threads.img
    "$program" "$image" format "$subscribers" "$((12 * subscribers))" 4 256 > /dev/null 2>&1
    cp "$image" "$room/before.img"
    "$program" "$image" drive 1 "$count" "$threads" > "$room/wanted" 2> /dev/null
    : > "$room/times"
    : > "$room/wholes"
    : > "$room/anews"
    : > "$room/drives"
    for ((round = 0; round < rounds; round++)); do
      "$room/volatile" "$room/before.img" 1 "$count" "$threads" "$locks" > "$room/answered" 2> "$room/told"
      cmp "$room/wanted" "$room/answered"
      cut -f 1 "$room/told" >> "$room/times"
      cut -f 5 "$room/told" >> "$room/wholes"
      cut -f 4 "$room/told" >> "$room/anews"
      opened=$(time_command recover)
      echo $(($(time_command drive 1 "$count" "$threads") - opened)) >> "$room/drives"
    done
    rate=$((count * threads * 1000000 / $(median "$room/times")))
    whole=$((count * threads * 1000000 / $(median "$room/wholes")))
    durable=$((count * threads * 1000000 / $(median "$room/drives")))
    one=${one:-$rate}
    echo "$subscribers subscribers, $threads threads: $rate requests a second, $(ratio "$rate" "$one") of one thread's;" \
      "$(median "$room/anews") begun anew; $whole with load and summary, of which drive has $(ratio "$durable" "$whole"):" \
      "$durable, $(ratio "$durable" "$rate") of the first"
    add_figures "$csv" memory volatile "$subscribers" "$threads" "$count" "" "$rate" ""
  done
done
